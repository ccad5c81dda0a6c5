"""Plans the change that replaces 1 with 5, applies the plan, and computes the committed index afterwards."""
import confscript

now = "Voters:[1 2 3] VotersOutgoing:[] Learners:[] LearnersNext:[] AutoLeave:false"
steps = confscript.plan(now, "r1 v5")
print(steps + confscript.apply(now, steps))
print("committed", confscript.committed([2, 3, 5], [], {2: 9, 3: 7}))
