//! Document 01's sheet of an accepted room, from any engine's answers.

use std::fmt::Write;

use crate::bases::proximity::half_cost;
use crate::interface::{Engine, FieldCall};
use crate::room::read_room;

/// What program `sheet` prints for a text: a sheet, or one refusal line.
pub fn program(engine: &dyn Engine, text: &[u8]) -> String {
    match read_room(text) {
        Ok(call) => sheet(engine, &call),
        Err(refusal) => format!("{refusal}\n"),
    }
}

/// Window, sweep count, target cells with their half costs, and fields, as program `sheet` prints
/// them. The limits of refusal 10 and the eight lanes of the program are not asked for.
pub fn sheet(engine: &dyn Engine, call: &FieldCall) -> String {
    let field = engine.field(call);
    let access = engine.access_lists(&call.map, &call.resources);
    let fields = engine.fields(&call.map, &access);

    let mut text = String::new();
    let mut line = |content: String| writeln!(text, "{content}").expect("a string takes it");
    let window = field.window;
    line(format!(
        "window {} {} {} {}",
        window.left, window.top, window.width, window.height
    ));
    line(format!("sweeps {}", field.sweeps));
    let [left, top, right, bottom] = call.targets.map(|edge| edge as u32);
    line(format!("cells {}", (right - left + 1) * (bottom - top + 1)));
    for y in top..=bottom {
        for x in left..=right {
            let lanes = field.reading(x, y);
            let costs = (0..call.resources.len()).map(|resource| {
                match lanes.and_then(|lanes| half_cost(lanes[resource])) {
                    Some(cost) => format!(" {cost}"),
                    None => " -".to_string(),
                }
            });
            line(format!("{x} {y}{}", costs.collect::<String>()));
        }
    }
    let count = fields.iter().max().map_or(0, |&last| last + 1);
    line(format!("groups {count}"));
    for number in fields {
        line(number.to_string());
    }
    text
}
