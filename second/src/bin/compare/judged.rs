//! What a rule looks at in a message.

use second::book::Rule;
use second::cutting::{Message, Part};
use second::order::Name;

/// The repetitions of the rule's field in each segment of its name.
pub fn fields(message: Message, rule: &Rule) -> Vec<Vec<Part>> {
    let mut fields = message.header();
    let segments = message.segments().filter(|segment| Name::of(message.name(*segment)) == Some(rule.name));
    segments
        .map(|segment| {
            fields.cut(message, segment);
            message.repetitions(fields.field(rule.field.into())).collect()
        })
        .collect()
}

/// What stands at the rule's component of a repetition.
pub fn value<'m>(message: Message<'m>, rule: &Rule, repetition: Part) -> &'m [u8] {
    message.text(message.component(repetition, rule.component.into()))
}
