//! What `trayread` is to print, by the independent decoder.

use independent::{Code, Plan, PLAN};

pub fn printed(input: &[u8]) -> String {
    match read(input) {
        Ok(lines) => lines,
        Err(number) => format!("REFUSED {number}\n"),
    }
}

fn read(input: &[u8]) -> Result<String, u32> {
    let (plan_bytes, photo) = input.split_at(input.len().min(PLAN));
    let plan = Plan::parse(plan_bytes)?;
    let (symbols, doubts) = photo.split_at(photo.len().min(Code::Mark.cells(&plan)));
    let mut record = vec![0; Code::Mark.size(&plan)];
    let reading = independent::read(Code::Mark, plan_bytes, symbols, doubts, &mut record);
    if reading.number != 0 {
        return Err(reading.number);
    }
    let coefficients: Vec<String> = record.iter().map(u8::to_string).collect();
    Ok(format!(
        "READ {} {} {} {} {} {}\nRECORD {}\n",
        plan.season,
        reading.changed,
        reading.unread,
        reading.class,
        reading.cost,
        reading.margin,
        coefficients.join(" ")
    ))
}
