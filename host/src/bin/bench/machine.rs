//! What kind of machine the times are of.

use std::fs;

fn field(text: &str, name: &str) -> Option<String> {
    let line = text.lines().find(|line| line.split(':').next().map(str::trim) == Some(name))?;
    Some(line.split(':').nth(1)?.trim().to_string())
}

/// The processor's name as /proc/cpuinfo has it; Arm gives numbers in the place of a name.
fn processor() -> String {
    let text = fs::read_to_string("/proc/cpuinfo").unwrap_or_default();
    match (field(&text, "model name"), field(&text, "CPU implementer"), field(&text, "CPU part")) {
        (Some(name), _, _) => name,
        (None, Some(maker), Some(part)) => format!("Arm, implementer {maker} part {part}"),
        _ => "of a kind that /proc/cpuinfo does not tell".to_string(),
    }
}

/// One line for the table's head, and whether the program runs on its own kind of processor.
pub fn kind() -> (String, bool) {
    let program = std::env::consts::ARCH;
    let machine = fs::read_to_string("/proc/sys/kernel/arch").map_or(program.to_string(), |text| text.trim().to_string());
    if machine == program {
        (format!("{program}, {}", processor()), true)
    } else {
        (format!("{program} program emulated on a machine of kind {machine}"), false)
    }
}
