//! The lines that the manifest prints for a wide image.
use super::card;
use super::field::WIDE;

pub fn manifest(image: &[u8]) -> String {
    if image.len() > 65_536 {
        return "refused 2\n".to_string();
    }
    match card::walk(WIDE, image) {
        Ok(entries) => {
            let head = format!("card {} sectors {}\n", WIDE.bytes(), entries.len());
            let lines = entries.iter().enumerate().map(|(sector, entry)| match entry {
                None => format!("{sector} blank\n"),
                Some((key, _)) => format!("{sector} key {key}\n"),
            });
            head + &lines.collect::<String>()
        }
        Err(fault) => match fault.sector {
            Some(sector) => format!("refused {} {sector}\n", fault.number),
            None => format!("refused {}\n", fault.number),
        },
    }
}
