//! Reads a photographed mark, case c of document 01: plan A and the mark of 3 + X + 2Y, two of its cells misread.
//! Prints what the program `trayread` prints.

fn main() {
    let mut plan = [0; traymark::PLAN_LENGTH];
    plan[..6].copy_from_slice(&[0, 12, 7, 3, 3, 1]); // season 12, p 7, 3 rows, 3 columns, d 1
    plan[6..9].copy_from_slice(&[1, 2, 4]); // the row points
    plan[22..25].copy_from_slice(&[1, 2, 4]); // the column points
    let symbols = [0, 1, 5, 0, 2, 6, 2, 4, 0];
    let doubts = [0; 9];
    let mut record = [0; 3];

    match traymark::read_mark(&plan, &symbols, &doubts, &mut record) {
        Ok(reading) => {
            println!(
                "READ {} {} {} {} {} {}",
                u16::from_be_bytes([plan[0], plan[1]]),
                reading.changed,
                reading.unread,
                reading.class,
                reading.cost,
                reading.margin
            );
            println!("RECORD {}", record.map(|c: u8| c.to_string()).join(" "));
        }
        Err(refusal) => println!("REFUSED {}", refusal.number()),
    }
}
