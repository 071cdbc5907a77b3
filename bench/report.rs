//! The table of what was measured, as markdown.

use crate::engines::Engine;
use crate::measure::Line;

pub fn head() {
    println!("| Tables | Mode | Rounds | Kept | this | before | plain | fast | this / fast | before / this | this / plain |");
    println!("|---|---|--:|--:|--:|--:|--:|--:|--:|--:|--:|");
}

/// Two or three digits that count.
pub fn digits(x: f64) -> String {
    match x {
        x if x < 0.0995 => format!("{x:.3}"),
        x if x < 9.995 => format!("{x:.2}"),
        x if x < 99.95 => format!("{x:.1}"),
        _ => format!("{x:.0}"),
    }
}

pub fn time(seconds: f64) -> String {
    match seconds {
        s if s < 0.999_5e-3 => format!("{} µs", digits(s * 1e6)),
        s if s < 0.999_5 => format!("{} ms", digits(s * 1e3)),
        s => format!("{} s", digits(s)),
    }
}

fn or_dash(text: Option<String>) -> String {
    text.unwrap_or("-".to_string())
}

pub fn show(line: &Line) {
    let of = |engine: Engine| line.medians.iter().find(|(other, _)| *other == engine).map(|(_, median)| *median);
    let told = |engine: Engine| or_dash(of(engine).map(time));
    let ratio = |a: Engine, b: Engine| or_dash(of(a).zip(of(b)).map(|(a, b)| digits(a / b)));
    println!(
        "| {} | {} | {} | {} | {} | {} | {} | {} | {} | {} | {} |",
        line.name,
        ["full", "partial"][line.mode],
        line.verdict.rounds,
        line.verdict.kept,
        told(Engine::This),
        told(Engine::Before),
        told(Engine::Plain),
        told(Engine::Fast),
        ratio(Engine::This, Engine::Fast),
        ratio(Engine::Before, Engine::This),
        ratio(Engine::This, Engine::Plain),
    );
}
