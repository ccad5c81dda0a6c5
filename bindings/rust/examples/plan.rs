//! Plans the change that replaces 1 with 5, applies the plan, and computes the committed index afterwards.
fn main() -> Result<(), confscript::Error> {
    let now = "Voters:[1 2 3] VotersOutgoing:[] Learners:[] LearnersNext:[] AutoLeave:false";
    let steps = confscript::plan(now, "r1 v5")?;
    let after = confscript::apply(now, &steps)?;
    let index = confscript::committed(&[2, 3, 5], &[], |id| match id {
        2 => 9,
        3 => 7,
        _ => 0,
    });
    println!("{steps}{after}\ncommitted {index}");
    Ok(())
}
