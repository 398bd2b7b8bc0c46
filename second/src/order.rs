//! The ten names that count and which may follow which.

#[derive(Clone, Copy, Debug, PartialEq, Eq)]
pub enum Name {
    Msh,
    Pid,
    Pd1,
    Nk1,
    Pv1,
    Orc,
    Rxa,
    Rxr,
    Obx,
    Nte,
}

pub const NAMES: [Name; 10] =
    [Name::Msh, Name::Pid, Name::Pd1, Name::Nk1, Name::Pv1, Name::Orc, Name::Rxa, Name::Rxr, Name::Obx, Name::Nte];

/// The column of the message's end.
const END: usize = 10;

/// Row: the counted segment before; column: the name that follows it, or the end.
const FOLLOW: [[u8; 11]; 10] = [
    //MSH PID PD1 NK1 PV1 ORC RXA RXR OBX NTE end
    [0, 1, 0, 0, 0, 0, 0, 0, 0, 0, 0], // MSH
    [0, 0, 1, 1, 1, 1, 0, 0, 0, 0, 1], // PID
    [0, 0, 0, 1, 1, 1, 0, 0, 0, 0, 1], // PD1
    [0, 0, 0, 1, 1, 1, 0, 0, 0, 0, 1], // NK1
    [0, 0, 0, 0, 0, 1, 0, 0, 0, 0, 1], // PV1
    [0, 0, 0, 0, 0, 0, 1, 0, 0, 0, 0], // ORC
    [0, 0, 0, 0, 0, 1, 0, 1, 1, 0, 1], // RXA
    [0, 0, 0, 0, 0, 1, 0, 0, 1, 0, 1], // RXR
    [0, 0, 0, 0, 0, 1, 0, 0, 1, 1, 1], // OBX
    [0, 0, 0, 0, 0, 1, 0, 0, 1, 1, 1], // NTE
];

impl Name {
    /// The name, or `None` for a segment that is passed over.
    pub fn of(text: &[u8]) -> Option<Name> {
        Some(match text {
            b"MSH" => Name::Msh,
            b"PID" => Name::Pid,
            b"PD1" => Name::Pd1,
            b"NK1" => Name::Nk1,
            b"PV1" => Name::Pv1,
            b"ORC" => Name::Orc,
            b"RXA" => Name::Rxa,
            b"RXR" => Name::Rxr,
            b"OBX" => Name::Obx,
            b"NTE" => Name::Nte,
            _ => return None,
        })
    }

    pub fn bytes(self) -> &'static [u8; 3] {
        match self {
            Name::Msh => b"MSH",
            Name::Pid => b"PID",
            Name::Pd1 => b"PD1",
            Name::Nk1 => b"NK1",
            Name::Pv1 => b"PV1",
            Name::Orc => b"ORC",
            Name::Rxa => b"RXA",
            Name::Rxr => b"RXR",
            Name::Obx => b"OBX",
            Name::Nte => b"NTE",
        }
    }

    pub fn may_follow(self, before: Name) -> bool {
        FOLLOW[before as usize][self as usize] == 1
    }

    pub fn may_end(self) -> bool {
        FOLLOW[self as usize][END] == 1
    }
}

#[cfg(test)]
mod tests {
    use super::*;

    #[test]
    fn the_table_is_the_list_of_01() {
        let list: [(&str, &str); 10] = [
            ("MSH", "PID"),
            ("PID", "PD1 NK1 PV1 ORC end"),
            ("PD1", "NK1 PV1 ORC end"),
            ("NK1", "NK1 PV1 ORC end"),
            ("PV1", "ORC end"),
            ("ORC", "RXA"),
            ("RXA", "RXR OBX ORC end"),
            ("RXR", "OBX ORC end"),
            ("OBX", "OBX NTE ORC end"),
            ("NTE", "OBX NTE ORC end"),
        ];
        for (before, followers) in list {
            let before = Name::of(before.as_bytes()).unwrap();
            let listed = |name: &[u8]| followers.split(' ').any(|f| f.as_bytes() == name);
            for name in NAMES {
                assert_eq!(name.may_follow(before), listed(name.bytes()), "{name:?} after {before:?}");
                assert_eq!(Name::of(name.bytes()), Some(name));
            }
            assert_eq!(before.may_end(), listed(b"end"), "the end after {before:?}");
        }
        for other in ["SFT", "IN1", "ZSA", "pid", "PI", "PIDX"] {
            assert_eq!(Name::of(other.as_bytes()), None);
        }
    }
}
