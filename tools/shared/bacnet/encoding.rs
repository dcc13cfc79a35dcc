// Stand-in for the Rust's module `encoding`, which isn't among its files: what util/mod.rs needs of
// it to compile. Only texts for debugging use it there; nothing that is asked here does.

// Functions of some octets, each with its value's type. They answer nothing: they panic.
macro_rules! absent {
    ($($name:ident: $value:ty,)*) => {
        $(
            pub fn $name(_: &[u8]) -> Result<($value, usize), String> {
                panic!("the module `encoding` isn't here")
            }
        )*
    };
}

absent! {
    decode_boolean: bool,
    decode_unsigned: u64,
    decode_signed: i64,
    decode_real: f32,
    decode_double: f64,
    decode_octet_string: Vec<u8>,
    decode_enumerated: u32,
    decode_date: (u16, u8, u8, u8),
    decode_time: (u8, u8, u8, u8),
    decode_object_identifier: ObjectIdentifier,
}

pub struct ObjectIdentifier {
    pub object_type: u16,
    pub instance: u32,
}

pub mod tag {
    pub struct Tag {
        pub class: TagClass,
        pub number: ApplicationTagNumber,
    }

    impl Tag {
        absent! { decode: Tag, }
    }

    #[derive(PartialEq)]
    pub enum TagClass {
        Application,
    }

    pub enum ApplicationTagNumber {
        Boolean,
        UnsignedInt,
        SignedInt,
        Real,
        Double,
        OctetString,
        CharacterString,
        Enumerated,
        Date,
        Time,
        ObjectIdentifier,
    }
}

pub mod character_string {
    absent! { decode_character_string: CharacterString, }

    // A type without values, so that nothing can be asked of one.
    pub enum CharacterString {}

    #[derive(Debug, PartialEq)]
    pub enum CharacterSet {
        Utf8,
    }

    impl CharacterString {
        // Never called.
        pub fn charset(&self) -> CharacterSet {
            match *self {}
        }
    }

    impl std::fmt::Display for CharacterString {
        // Never called.
        fn fmt(&self, _: &mut std::fmt::Formatter<'_>) -> std::fmt::Result {
            match *self {}
        }
    }
}
