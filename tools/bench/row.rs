// A row of the tables: a function at a size, and what is called for it on each side.

// The sizes that functions are measured at, and all of them that are at most a limit.
pub const SIZES: [usize; 5] = [8, 64, 511, 1_514, 65_535];

pub fn sizes_to(most: usize) -> impl Iterator<Item = usize> {
    SIZES.into_iter().filter(move |size| *size <= most)
}

// A function's pointer, which the compiler can't see through.
macro_rules! pointer {
    ($function:path as $kind:ty) => {{
        let pointer: $kind = $function;
        std::hint::black_box(pointer)
    }};
}
pub(crate) use pointer;

// Makes so many calls, one behind another.
pub type Calls = Box<dyn Fn(usize)>;

pub struct Row {
    pub name: &'static str,
    pub octets: usize,
    pub ours: Calls,
    pub theirs: Option<Calls>,
}

impl Row {
    // A row with both sides. What a call answers is dropped.
    pub fn both<A, B>(
        name: &'static str,
        octets: usize,
        ours: impl Fn() -> A + 'static,
        theirs: impl Fn() -> B + 'static,
    ) -> Row {
        Row {
            theirs: Some(calls(theirs)),
            ..Row::alone(name, octets, ours)
        }
    }

    // A row of a function that the Rust doesn't have.
    pub fn alone<A>(name: &'static str, octets: usize, ours: impl Fn() -> A + 'static) -> Row {
        Row {
            name,
            octets,
            ours: calls(ours),
            theirs: None,
        }
    }
}

fn calls<A>(call: impl Fn() -> A + 'static) -> Calls {
    Box::new(move |count| {
        for _ in 0..count {
            call();
        }
    })
}

// Something that crosses no page where it has at most 256 octets, so that no row is slower for where
// its memory stands.
#[repr(align(256))]
struct Aligned<A>(A);

// Memory that is lent to every call of a row, never cleared and never given back.
pub fn lent<A>(value: A) -> *mut A {
    &mut Box::leak(Box::new(Aligned(value))).0
}

// A list that is lent to every call of a row, never cleared and never given back.
pub fn lent_list<A: Clone>(value: A, count: usize) -> *mut [A] {
    vec![value; count].leak()
}

// What stands in lent memory now.
pub fn now<A: Copy>(memory: *mut A) -> A {
    // Safety: the memory comes from `lent`, and no call is under way.
    unsafe { *memory }
}

// What stands at the front of a lent list now.
pub fn front<A: Clone>(list: *mut [A], count: usize) -> Vec<A> {
    // Safety: the list comes from `lent_list`, and no call is under way.
    unsafe { (&*list)[..count].to_vec() }
}
