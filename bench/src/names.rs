//! Which function an address belongs to, from the list of names that `nm` prints.

pub struct Names(Vec<(u64, String)>);

pub const CALLER: &str = "the calling program";

impl Names {
    pub fn parse(text: &str) -> Names {
        let mut names: Vec<(u64, String)> = text.lines().filter_map(function).collect();
        names.sort();
        Names(names)
    }

    /// The library's function, or the C library's copying and filling, or the calling program.
    pub fn function_at(&self, address: u64) -> &str {
        let after = self.0.partition_point(|(start, _)| *start <= address);
        let name = match after {
            0 => "",
            _ => self.0[after - 1].1.as_str(),
        };
        if name.contains("::") || name.starts_with("blentovar_") {
            name
        } else if name.contains("memcpy") || name.contains("memmove") {
            "memcpy"
        } else if name.contains("memset") {
            "memset"
        } else {
            CALLER
        }
    }
}

fn function(row: &str) -> Option<(u64, String)> {
    let mut columns = row.splitn(3, ' ');
    let start = u64::from_str_radix(columns.next()?, 16).ok()?;
    let kind = columns.next()?;
    let name = columns.next()?;
    "tTwWi".contains(kind).then(|| (start, name.to_string()))
}

#[cfg(test)]
mod tests {
    use super::{Names, CALLER};

    #[test]
    fn an_address_belongs_to_the_function_before_it() {
        let text = "0000000000000020 t locate::locate\n                 U main\n0000000000000010 T main\n0000000000000028 r table\n0000000000000030 T __memset_sse2\n";
        let names = Names::parse(text);
        assert_eq!(names.function_at(0xf), CALLER);
        assert_eq!(names.function_at(0x1f), CALLER);
        assert_eq!(names.function_at(0x20), "locate::locate");
        assert_eq!(names.function_at(0x2f), "locate::locate");
        assert_eq!(names.function_at(0x99), "memset");
    }
}
