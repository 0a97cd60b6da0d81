//! Stand-in for `nom`: the error types in the signature of a parser that is never run here.

#[derive(Debug)]
pub enum Err<E> {
    Error(E),
}

pub mod error {
    #[derive(Debug)]
    pub struct Error<I>(pub I);
}

impl Err<error::Error<&str>> {
    pub fn to_owned(self) -> Err<error::Error<String>> {
        let Err::Error(error::Error(input)) = self;
        Err::Error(error::Error(input.to_owned()))
    }
}
