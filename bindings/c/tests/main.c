/* Every function of lefkanu.h, accepted and refused. */
#include "check.h"

int main(void)
{
    test_checks();
    test_mstp();
    test_bvlc();
    test_ethernet();
    test_validation();
    test_analysis();
    test_padding();
    test_finder();
    test_log();
    return outcome() == 0 ? 0 : 1;
}
