//! Stands in for the crate of this name. The original's UTF-16 file names it in
//! a function that reading a manifest never calls, so only its types have to fit.

pub struct Bump;

pub mod collections {
    use std::marker::PhantomData;

    pub struct String<'a> {
        text: std::string::String,
        arena: PhantomData<&'a super::Bump>,
    }

    impl<'a> String<'a> {
        pub fn with_capacity_in(capacity: usize, _: &'a super::Bump) -> Self {
            String {
                text: std::string::String::with_capacity(capacity),
                arena: PhantomData,
            }
        }

        pub fn push(&mut self, c: char) {
            self.text.push(c);
        }

        /// Leaks the text: there is no arena that could keep it.
        pub fn into_bump_str(self) -> &'a str {
            self.text.leak()
        }
    }
}
