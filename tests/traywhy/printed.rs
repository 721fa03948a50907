//! What `traywhy` is to print, by the independent decoder.

use independent::{Code, Plan, Reason, PLAN};

pub fn printed(input: &[u8]) -> String {
    explained(input).unwrap_or_else(|number| format!("REFUSED {number}\n"))
}

fn explained(input: &[u8]) -> Result<String, u32> {
    let (plan_bytes, rest) = input.split_at(input.len().min(PLAN));
    let plan = Plan::parse(plan_bytes)?;
    let (expected, photo) = rest.split_at(rest.len().min(Code::Mark.size(&plan)));
    let (symbols, doubts) = photo.split_at(photo.len().min(Code::Mark.cells(&plan)));
    let mut other = vec![0; Code::Mark.size(&plan)];
    let Reason { number, reason, place, excess } =
        independent::explain(Code::Mark, plan_bytes, expected, symbols, doubts, &mut other);
    match (number, reason) {
        (0, 1) => {
            let reading = independent::measure(Code::Mark, plan_bytes, expected, symbols, doubts);
            Ok(format!("ANSWER {} {}\n", reading.cost, reading.margin))
        }
        (0, 2) => {
            let coefficients: Vec<String> = other.iter().map(u8::to_string).collect();
            Ok(format!("OTHER {place}\nRECORD {}\n", coefficients.join(" ")))
        }
        (0, _) => Ok(format!("NONE {excess}\n")),
        _ => Err(number),
    }
}
