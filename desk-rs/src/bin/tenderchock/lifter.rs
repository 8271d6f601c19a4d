//! The lines of IN on their way: held for a while, sent through their chains run by run,
//! and told in their order.

use crate::args::Lifting;
use crate::chains::Chains;
use crate::input::Item;
use crate::lift::Outputs;
use crate::lines::Lines;
use crate::outcome::Trouble;
use crate::report::Report;
use crate::run::Runs;
use crate::window::Window;

pub struct Lifter<'r> {
    header: bool,
    /// Whether there was a line that isn't passed over.
    begun: bool,
    window: Window,
    runs: Runs<'r>,
    pub lines: Lines<'r>,
}

impl<'r> Lifter<'r> {
    pub fn new(chains: &'r Chains, outputs: Outputs, options: &'r Lifting) -> Lifter<'r> {
        Lifter {
            header: options.header,
            begun: false,
            window: Window::default(),
            runs: Runs::new(chains, options),
            lines: Lines::new(outputs, options),
        }
    }

    /// What comes next in IN. A note on a line passed over waits for the lines before it.
    pub fn item(&mut self, report: &mut Report, item: Item) -> Result<(), Trouble> {
        match item {
            Item::Text(text) => {
                self.begun = true;
                self.window.hold(&text);
            }
            Item::PassedOver(passed) => {
                match passed.noted {
                    true if self.begun => self.window.hold_passed_over(passed.number),
                    true => report.note_passed_over(passed.number)?,
                    false => (),
                }
                if self.header && !self.begun {
                    self.lines.outputs.out.put(passed.line)?;
                    self.lines.outputs.out.put(b"\n")?;
                }
            }
        }
        match self.window.is_full() {
            true => self.work_off(report),
            false => Ok(()),
        }
    }

    /// Sends and tells the lines that are held.
    pub fn work_off(&mut self, report: &mut Report) -> Result<(), Trouble> {
        let mut waiting = self.window.waiting();
        loop {
            let tally = &mut self.lines.counts.tally;
            let ready = self.runs.next(&mut waiting, report, tally);
            if ready.is_empty() {
                break;
            }
            for line in &ready {
                self.lines.tell(report, line, &self.runs)?;
            }
        }
        drop(waiting);
        self.window.clear();
        Ok(())
    }
}
