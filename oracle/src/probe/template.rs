
// Not part of template.rs: all above is that file, byte for byte; build.rs adds this after its end.
/// A child module sees its parent's private items.
#[doc(hidden)]
pub mod probe {
    use super::{Piece, StdResult, Template, TemplateProcessingBuilder, Tokens};
    pub fn count_added(t: &Template, s: Option<&Tokens>) -> usize {
        super::count_added(t, s)
    }
    pub fn pieces(t: &Template) -> &[Piece] {
        &t.0
    }
    pub fn validate(b: &TemplateProcessingBuilder) -> StdResult<(), String> {
        b.validate()
    }
}
