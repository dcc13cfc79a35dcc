/* Ethernet frames. */
#include "check.h"

#define DEST "66 77 88 99 AA BB"
#define SRC "00 11 22 33 44 55"
#define FRONT DEST SRC "82 DC 82 82 03"

/* What every reading lends, in the order of the parameters. */
typedef struct {
    uint8_t *dest_mac;
    uint8_t *src_mac;
    size_t *payload;
} lent_for_reading;

static lent_for_reading lend_for_reading(void)
{
    return (lent_for_reading){lend_octets(6), lend_octets(6), lend_numbers(2)};
}

static void expect_read(lent_for_reading l, size_t payload_octets)
{
    expect_octets(l.dest_mac, DEST);
    expect_octets(l.src_mac, SRC);
    expect_numbers(l.payload, NUMBERS(17, payload_octets));
}

static uint8_t decode_form(uint8_t form, octets frame, lent_for_reading l)
{
    return lefkanu_ethernet_decode_form(form, frame.at, frame.count, l.dest_mac, l.src_mac, l.payload);
}

static void refuse_reading(const char *frame, uint8_t answer)
{
    begin("ethernet_decode, refused");
    octets f = given(frame);
    lent_for_reading l = lend_for_reading();
    expect_refusal(lefkanu_ethernet_decode(f.at, f.count, l.dest_mac, l.src_mac, l.payload), answer);
    expect_refusal(decode_form(LEFKANU_FORM_ETHER_TYPE, f, l), answer);
    expect_refusal(lefkanu_ethernet_validate(f.at, f.count), answer);
}

static void refuse_writing(size_t payload_octets, size_t room, uint8_t answer)
{
    begin("ethernet_encode, refused");
    octets dest = given(DEST), src = given(SRC), payload = filled(0x41, payload_octets);
    uint8_t *out = lend_octets(room);
    size_t *count = lend_numbers(1);
    expect_refusal(lefkanu_ethernet_encode(dest.at, src.at, payload.at, payload.count, out, room, count), answer);
}

static void test_sizes(size_t size, uint8_t answer)
{
    begin("ethernet_decode and ethernet_validate");
    octets frame = joined(given(FRONT), filled(0x41, size - 17));
    lent_for_reading l = lend_for_reading();
    expect_refusal(lefkanu_ethernet_validate(frame.at, frame.count), answer);
    expect_answer(lefkanu_ethernet_decode(frame.at, frame.count, l.dest_mac, l.src_mac, l.payload), 0);
    expect_read(l, size - 17);

    begin("ethernet_decode_form, 82 DC");
    frame = joined(given(FRONT), filled(0x41, size - 17));
    l = lend_for_reading();
    expect_answer(decode_form(LEFKANU_FORM_ETHER_TYPE, frame, l), 0);
    expect_read(l, size - 17);
}

/* Frames of the form of clause 7: head, up to the LLC header or beyond, then so many octets of one value. */
static void read_length(const char *head, uint8_t octet, size_t more, size_t payload_octets)
{
    begin("ethernet_decode_form, length");
    octets frame = joined(given(head), filled(octet, more));
    lent_for_reading l = lend_for_reading();
    expect_answer(decode_form(LEFKANU_FORM_LENGTH, frame, l), 0);
    expect_read(l, payload_octets);
}

static void refuse_length(const char *head, uint8_t octet, size_t more, uint8_t answer)
{
    begin("ethernet_decode_form, length, refused");
    octets frame = joined(given(head), filled(octet, more));
    expect_refusal(decode_form(LEFKANU_FORM_LENGTH, frame, lend_for_reading()), answer);
}

static void refuse_form(uint8_t form)
{
    begin("ethernet_decode_form, no form");
    lent_for_reading l = lend_for_reading();
    expect_refusal(decode_form(form, given(""), l), LEFKANU_NO_CASE);
    expect_refusal(decode_form(form, given(FRONT), l), LEFKANU_NO_CASE);
    expect_refusal(decode_form(form, given(DEST SRC "00 03 82 82 03"), l), LEFKANU_NO_CASE);
    expect_refusal(decode_form(form, filled(0, 1515), l), LEFKANU_NO_CASE);

    begin("ethernet_encode_form, no form");
    octets dest = given(DEST), src = given(SRC), payload = filled(0x41, 1498);
    uint8_t *out = lend_octets(2000);
    size_t *count = lend_numbers(1);
    for (size_t size = 0; size <= 1498; size += 1498) {
        expect_refusal(lefkanu_ethernet_encode_form(form, dest.at, src.at, payload.at, size, out, 2000, count),
                       LEFKANU_NO_CASE);
        expect_refusal(lefkanu_ethernet_encode_form(form, dest.at, src.at, payload.at, size, out, 0, count),
                       LEFKANU_NO_CASE);
    }
}

static void refuse_writing_form(size_t payload_octets, size_t room, uint8_t answer)
{
    for (uint8_t form = LEFKANU_FORM_ETHER_TYPE; form <= LEFKANU_FORM_LENGTH; form++) {
        begin("ethernet_encode_form, refused");
        octets dest = given(DEST), src = given(SRC), payload = filled(0x41, payload_octets);
        uint8_t *out = lend_octets(room);
        size_t *count = lend_numbers(1);
        expect_refusal(lefkanu_ethernet_encode_form(form, dest.at, src.at, payload.at, payload.count, out, room, count),
                       answer);
    }
}

/* Writes a payload of octets 41, then reads the frame. front: how the frame begins. */
static void write_and_read(uint8_t form, size_t payload_octets, const char *front)
{
    begin("ethernet_encode_form, then ethernet_decode_form");
    size_t size = payload_octets < 43 ? 60 : payload_octets + 17;
    octets dest = given(DEST), src = given(SRC), payload = filled(0x41, payload_octets);
    uint8_t *out = lend_octets(size + 2);
    size_t *count = lend_numbers(1);
    expect_answer(lefkanu_ethernet_encode_form(form, dest.at, src.at, payload.at, payload.count, out, size + 2, count),
                  0);
    expect_octets(out, front);
    expect_all(out + 17, 0x41, payload_octets);
    expect_all(out + 17 + payload_octets, 0, size - 17 - payload_octets);
    expect_octets(out + size, "A5 A5");
    expect_numbers(count, NUMBERS(size));

    lent_for_reading l = lend_for_reading();
    expect_answer(decode_form(form, (octets){out, size}, l), 0);
    expect_read(l, form == LEFKANU_FORM_LENGTH ? payload_octets : size - 17);

    /* The other form refuses it. */
    l = lend_for_reading();
    if (form == LEFKANU_FORM_LENGTH)
        expect_answer(decode_form(LEFKANU_FORM_ETHER_TYPE, (octets){out, size}, l), 22);
    else
        expect_answer(decode_form(LEFKANU_FORM_LENGTH, (octets){out, size}, l), 61);
    expect_all(l.dest_mac, FILL, 6);
    expect_all(l.src_mac, FILL, 6);
    expect_all((const uint8_t *)l.payload, FILL, 2 * sizeof *l.payload);
}

static void test_length(void)
{
    /* All that is there, nothing, the most. */
    read_length(DEST SRC "00 03 82 82 03", 0, 0, 0);
    read_length(DEST SRC "00 05 82 82 03", 0x41, 2, 2);
    read_length(DEST SRC "05 DC 82 82 03", 0x41, 1497, 1497);
    /* High octet first. */
    read_length(DEST SRC "00 FF 82 82 03", 0x41, 252, 252);
    read_length(DEST SRC "01 00 82 82 03", 0x41, 253, 253);
    read_length(DEST SRC "01 02 82 82 03", 0x41, 255, 255);
    /* What is behind the payload is ignored: zeros, others, as much as there may be. */
    read_length(DEST SRC "00 03 82 82 03", 0x00, 43, 0);
    read_length(DEST SRC "00 05 82 82 03 41 42", 0x00, 41, 2);
    read_length(DEST SRC "00 05 82 82 03 41 42", 0xFF, 1, 2);
    read_length(DEST SRC "00 05 82 82 03 41 42 82 DC 82 82 03", 0x41, 60, 2);
    read_length(DEST SRC "00 03 82 82 03", 0xFF, 1497, 0);
    read_length(DEST SRC "05 DB 82 82 03", 0x41, 1497, 1496);
    /* Zeros that are counted are payload. */
    read_length(DEST SRC "00 04 82 82 03", 0x00, 43, 1);
    read_length(DEST SRC "00 06 82 82 03 41", 0x00, 42, 3);

    refuse_length("", 0, 0, 21);
    refuse_length(DEST SRC "00 03 82 82", 0, 0, 21);
    refuse_length(DEST SRC "05 DC 82 82 03", 0x41, 1498, 24);
    refuse_length(DEST SRC "00 03 82 82 03", 0, 1498, 24);
    refuse_length(DEST SRC "00 00 82 82 03", 0, 43, 61);
    refuse_length(DEST SRC "00 02 82 82 03", 0, 43, 61);
    refuse_length(DEST SRC "00 02 82 82 03", 0, 0, 61);
    refuse_length(DEST SRC "05 DD 82 82 03", 0x41, 1497, 61);
    refuse_length(FRONT, 0, 43, 61);
    refuse_length(DEST SRC "03 00 82 82 03", 0, 0, 62);
    refuse_length(DEST SRC "00 04 82 82 03", 0, 0, 62);
    refuse_length(DEST SRC "00 2F 82 82 03", 0, 43, 62);
    refuse_length(DEST SRC "05 DC 82 82 03", 0x41, 1496, 62);
    refuse_length(DEST SRC "00 03 83 82 03", 0, 43, 23);
    refuse_length(DEST SRC "00 03 82 83 03", 0, 43, 23);
    refuse_length(DEST SRC "00 03 82 82 E3", 0, 43, 23);

    /* Several questions fail: the first is answered. */
    refuse_length(DEST SRC "00 02 AA AA", 0, 0, 21);
    refuse_length(DEST SRC "00 02 AA AA 03", 0, 1498, 24);
    refuse_length(DEST SRC "05 DD AA AA 03", 0, 1498, 24);
    refuse_length(DEST SRC "00 02 AA AA 03", 0, 0, 61);
    refuse_length(DEST SRC "05 DD AA AA 03", 0, 1496, 61);
    refuse_length(DEST SRC "FF FF AA AA 03", 0, 43, 61);
    refuse_length(DEST SRC "00 04 AA AA 03", 0, 0, 62);
    refuse_length(DEST SRC "05 DC AA AA 03", 0, 1496, 62);
}

void test_ethernet(void)
{
    test_sizes(17, 0);
    test_sizes(60, 0);
    test_sizes(1514, 0);
    test_sizes(1515, 24);
    refuse_reading("", 21);
    refuse_reading(DEST SRC "82 DC 82 82", 21);
    refuse_reading(DEST SRC "00 03 82 82", 21);
    refuse_reading(DEST SRC "00 03 82 82 03", 22);
    refuse_reading(DEST SRC "00 03 82 82 E3", 22);
    refuse_reading(DEST SRC "82 DC 82 82 E3", 23);

    begin("ethernet_encode");
    octets dest = given(DEST), src = given(SRC), payload = given("41 42");
    uint8_t *out = lend_octets(62);
    size_t *count = lend_numbers(1);
    expect_answer(lefkanu_ethernet_encode(dest.at, src.at, payload.at, payload.count, out, 62, count), 0);
    expect_octets(out, FRONT "41 42");
    expect_all(out + 19, 0, 41);
    expect_octets(out + 60, "A5 A5");
    expect_numbers(count, NUMBERS(60));

    begin("ethernet_encode, the longest");
    dest = given(DEST), src = given(SRC), payload = filled(0x41, 1497);
    out = lend_octets(1514);
    count = lend_numbers(1);
    expect_answer(lefkanu_ethernet_encode(dest.at, src.at, payload.at, payload.count, out, 1514, count), 0);
    expect_octets(out, FRONT);
    expect_all(out + 17, 0x41, 1497);
    expect_numbers(count, NUMBERS(1514));

    refuse_writing(1498, 2000, 24);
    refuse_writing(1498, 0, 24);
    refuse_writing(0, 59, 25);
    refuse_writing(44, 60, 25);
    refuse_writing(0, 0, 25);

    test_length();

    static const size_t payloads[] = {0, 1, 2, 42, 43, 44, 1496, 1497};
    for (size_t i = 0; i < sizeof payloads / sizeof payloads[0]; i++)
        write_and_read(LEFKANU_FORM_ETHER_TYPE, payloads[i], FRONT);
    write_and_read(LEFKANU_FORM_LENGTH, 0, DEST SRC "00 03 82 82 03");
    write_and_read(LEFKANU_FORM_LENGTH, 1, DEST SRC "00 04 82 82 03");
    write_and_read(LEFKANU_FORM_LENGTH, 42, DEST SRC "00 2D 82 82 03");
    write_and_read(LEFKANU_FORM_LENGTH, 43, DEST SRC "00 2E 82 82 03");
    write_and_read(LEFKANU_FORM_LENGTH, 44, DEST SRC "00 2F 82 82 03");
    write_and_read(LEFKANU_FORM_LENGTH, 252, DEST SRC "00 FF 82 82 03");
    write_and_read(LEFKANU_FORM_LENGTH, 253, DEST SRC "01 00 82 82 03");
    write_and_read(LEFKANU_FORM_LENGTH, 1496, DEST SRC "05 DB 82 82 03");
    write_and_read(LEFKANU_FORM_LENGTH, 1497, DEST SRC "05 DC 82 82 03");

    refuse_writing_form(1498, 2000, 24);
    refuse_writing_form(1498, 0, 24);
    refuse_writing_form(0, 59, 25);
    refuse_writing_form(44, 60, 25);
    refuse_writing_form(1497, 1513, 25);
    refuse_writing_form(0, 0, 25);

    for (unsigned form = 2; form <= 0xFF; form++)
        refuse_form((uint8_t)form);
}
