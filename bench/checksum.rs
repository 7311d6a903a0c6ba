// The checksum that crates/enforcement_speed and crates/text_speed print.

pub fn added(sum: u64, entry: u64) -> u64 {
    (sum % 1_099_511_627_776 * 65_599 + entry % 1_099_511_627_776) % 1_099_511_627_776
}
