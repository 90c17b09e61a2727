//! A stand-in for the crate of schemas and fact ids, which is in no file given.

/// Fact ids, as document 01 fixes them for this comparison.
pub mod id {
    use crate::schema::PredicateId;

    const PREDICATE_BITS: u32 = 24;
    const SEQUENCE_BITS: u32 = 40;

    /// A raw id; "`from_raw` keeps every number".
    #[derive(Debug, Clone, Copy, PartialEq, Eq)]
    pub struct FactId(u64);

    /// A pair that is no id.
    #[derive(Debug)]
    pub struct BadPair;

    impl FactId {
        /// "a pair is good exactly if predicate < 2^24 and sequence < 2^40, raw = predicate × 2^40 + sequence"
        pub fn new(predicate: PredicateId, sequence: u64) -> Result<FactId, BadPair> {
            if predicate.0 < 1 << PREDICATE_BITS && sequence < 1 << SEQUENCE_BITS {
                Ok(FactId((u64::from(predicate.0) << SEQUENCE_BITS) + sequence))
            } else {
                Err(BadPair)
            }
        }

        pub fn from_raw(raw: u64) -> FactId {
            FactId(raw)
        }

        pub fn raw(self) -> u64 {
            self.0
        }

        pub fn predicate(self) -> PredicateId {
            PredicateId((self.0 >> SEQUENCE_BITS) as u32)
        }

        pub fn sequence(self) -> u64 {
            self.0 & ((1 << SEQUENCE_BITS) - 1)
        }
    }
}

/// Schemas are out of scope. The original's functions on them must compile and can never be called: a schema here has no value.
pub mod schema {
    #[derive(Debug, Clone, Copy, PartialEq, Eq)]
    pub struct PredicateId(pub u32);

    #[derive(Debug, Clone, Copy)]
    pub struct Name(());

    pub enum PredicateTy {
        Int,
        Str,
        Bytes,
        Fact(PredicateId),
        Record(Box<[(Name, PredicateTy)]>),
        Union(Box<[Alternative]>),
    }

    pub struct Alternative {
        pub name: Name,
        pub disc: u32,
        pub ty: PredicateTy,
    }

    pub enum Symbol {
        Schema(Name),
        Local(Name),
    }

    pub enum LocalInterner {}

    impl LocalInterner {
        pub fn get_or_intern(&mut self, _: &str) -> Symbol {
            match *self {}
        }
    }

    pub enum Interner {}

    impl Interner {
        pub fn resolve(&self, _: Name) -> Option<&str> {
            match *self {}
        }
    }

    pub struct Typed<'a> {
        pub ty: &'a PredicateTy,
    }

    pub struct Predicate {
        pub key: PredicateTy,
        pub value: Option<PredicateTy>,
    }

    pub enum Declared<'a> {
        Never(&'a Schema),
    }

    impl<'a> Declared<'a> {
        pub fn predicate(&self) -> &'a Predicate {
            self.never()
        }

        pub fn name(&self) -> Option<&'a str> {
            self.never()
        }

        pub fn key(&self) -> Typed<'a> {
            self.never()
        }

        pub fn value(&self) -> Option<Typed<'a>> {
            self.never()
        }

        fn never<T>(&self) -> T {
            let Declared::Never(schema) = self;
            match **schema {}
        }
    }

    pub enum Schema {}

    impl Schema {
        pub fn interner(&self) -> &Interner {
            match *self {}
        }

        pub fn get(&self, _: PredicateId) -> Option<Declared<'_>> {
            match *self {}
        }

        pub fn find_position(&self, _: &str) -> Option<(PredicateId, Declared<'_>)> {
            match *self {}
        }

        pub fn len(&self) -> usize {
            match *self {}
        }

        pub fn is_empty(&self) -> bool {
            match *self {}
        }

        pub fn is_virtual(&self, _: PredicateId) -> bool {
            match *self {}
        }
    }
}
