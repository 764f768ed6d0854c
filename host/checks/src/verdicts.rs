//! The proved verify beside the second program's, each answer counted.

use crate::cases::Triple;
use crate::inputs::hex;

/// How many numbers verify can answer with: 0 to 21.
const ANSWERS: usize = 22;

/// How many triples were compared, by the answer that both sides gave.
#[derive(Default)]
pub struct Verdicts {
    counts: [usize; ANSWERS],
}

impl Verdicts {
    /// What both sides answer.
    pub fn judge(&mut self, triple: &Triple) -> u32 {
        let Triple { table, request, text } = triple;
        let wanted = second::verify(table, request, text);
        let proved = archive::verify(table, request, text);
        assert_eq!(proved, wanted, "{}", said(triple));
        self.counts[wanted as usize] += 1;
        wanted
    }

    /// The same of a triple that was made to be answered so; what both sides have wrong shows here.
    pub fn expect(&mut self, triple: &Triple, wanted: u32) {
        let Triple { table, request, text } = triple;
        assert_eq!(second::verify(table, request, text), wanted, "the second program on {}", said(triple));
        self.judge(triple);
    }

    pub fn compared(&self) -> usize {
        self.counts.iter().sum()
    }

    pub fn of(&self, answer: u32) -> usize {
        self.counts[answer as usize]
    }

    /// As many triples were compared, and each of these numbers was the answer so often; else the inputs
    /// are not what they were.
    pub fn met(&self, compared: usize, answers: impl IntoIterator<Item = u32>, each: usize) {
        println!("{} triples, by answer {:?}", self.compared(), self.counts);
        assert!(self.compared() >= compared, "{} triples compared of {compared}", self.compared());
        for answer in answers {
            assert!(self.of(answer) >= each, "{} answers {answer} of {each}", self.of(answer));
        }
    }
}

fn said(triple: &Triple) -> String {
    let Triple { table, request, text } = triple;
    format!("table {}, request {}, token {}", hex(table), hex(request), String::from_utf8_lossy(text))
}
