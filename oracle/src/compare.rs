//! Two lists made by two builds, record by record.
use std::collections::BTreeMap;

#[derive(Default)]
struct Count {
    records: usize,
    answers: usize,
    inputs: usize,
    shortest: Option<(String, String)>,
}

/// For each record name: how many there are, how many differ in their answers (with the shortest such record), and in
/// how many already the inputs differ, which then come from answers of an earlier call.
pub fn compare(a: &str, b: &str) -> String {
    let records = |text: &str| text.lines().filter(|l| !l.starts_with('#')).map(str::to_string).collect::<Vec<_>>();
    let mut counts: BTreeMap<String, Count> = BTreeMap::new();
    let (a, b) = (records(a), records(b));
    for (x, y) in a.iter().zip(&b) {
        let count = counts.entry(x.split(' ').next().unwrap_or("").to_string()).or_default();
        count.records += 1;
        let (inputs, answers) = x.split_once(" = ").unwrap_or((x, ""));
        let (other, wanted) = y.split_once(" = ").unwrap_or((y, ""));
        if inputs != other {
            count.inputs += 1;
        } else if answers != wanted {
            count.answers += 1;
            if count.shortest.as_ref().is_none_or(|(s, _)| x.len() < s.len()) {
                count.shortest = Some((x.clone(), wanted.to_string()));
            }
        }
    }
    let mut text = String::new();
    for (name, c) in counts {
        text += &format!("{name} {} compared, {} differ", c.records, c.answers);
        if c.inputs > 0 {
            text += &format!(", {} have other inputs", c.inputs);
        }
        text += "\n";
        if let Some((shortest, wanted)) = c.shortest {
            text += &format!("  {shortest}\n  other: {wanted}\n");
        }
    }
    if a.len() != b.len() {
        text += &format!("{} and {} records\n", a.len(), b.len());
    }
    text
}
