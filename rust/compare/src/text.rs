//! An image as text.

use sir_image::{Code, Control, Image, Span};
use std::fmt::{self, Display, Formatter};

/// Shows an image record by record.
pub struct Shown<'a>(pub &'a Image);

impl Display for Shown<'_> {
    fn fmt(&self, f: &mut Formatter<'_>) -> fmt::Result {
        let Shown(image) = self;
        writeln!(f, "locals {}, init f{}, main {:?}", image.locals, image.init, image.main)?;
        for (function, entry) in image.entries.iter().enumerate() {
            writeln!(f, "f{function}: b{entry}")?;
        }
        for (block, record) in image.blocks.iter().enumerate() {
            let Span { start, end } = record.operations;
            let (inputs, outputs) = (run(image, record.inputs), run(image, record.outputs));
            writeln!(
                f,
                "b{block}: ({inputs}) operations {start}..{end} -> ({outputs}) {}",
                ending(image, record.control)
            )?;
        }
        for (index, record) in image.operations.iter().enumerate() {
            let name = Code::ALL.get(record.code as usize).map_or("?".to_string(), |code| format!("{code:?}"));
            let (inputs, outputs) = (run(image, record.inputs), run(image, record.outputs));
            writeln!(f, "op{index}: ({outputs}) = {name} ({inputs}) {:?}", record.extras)?;
        }
        write!(f, "payload words {:?}", image.words())
    }
}

fn run(image: &Image, run: Span) -> String {
    let locals = &image.operands[run.start as usize..run.end as usize];
    locals.iter().map(|local| format!("v{local}")).collect::<Vec<_>>().join(" ")
}

fn ending(image: &Image, control: Control) -> String {
    match control {
        Control::LastOpTerminates => "ends".to_string(),
        Control::InternalReturn => "returns".to_string(),
        Control::ContinuesTo(target) => format!("on to b{target}"),
        Control::Branches { condition, non_zero, zero } => format!("if v{condition} b{non_zero} else b{zero}"),
        Control::Switch { condition, first, count, fallback } => {
            let targets = &image.targets[first as usize..(first + count) as usize];
            format!("switch v{condition} {targets:?} else {fallback:?}")
        }
    }
}
