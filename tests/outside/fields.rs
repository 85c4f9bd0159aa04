//! Several changed fields: a revision of an accepted job, quoted or taken, is charged at most the sum of
//! a ceiling for each field that it changes.

use crate::history::{Answer, History, Step};
use crate::jobs;
use crate::memory::Lent;
use crate::promise::{check_pairs, qualifies};
use crate::random::Random;
use crate::shrink::{hold, smaller_bytes, without_block, Case, Smaller};
use crate::tally::Tally;

/// The contents of a template's fields.
type Contents = Vec<Vec<u8>>;

/// What a job and its revisions share: an opening, and a kept stretch after each field.
#[derive(Clone, Debug)]
struct Template {
    opening: Vec<u8>,
    kept: Vec<Vec<u8>>,
}

/// A changed field: the length of its new content, and all that is kept up to the next one.
struct Field {
    changed: usize,
    kept: Vec<u8>,
}

impl Template {
    /// The job with these contents.
    fn job(&self, contents: &Contents) -> Vec<u8> {
        let fields = contents.iter().zip(&self.kept);
        let fields = fields.flat_map(|(content, kept)| [&content[..], kept]);
        let parts: Vec<&[u8]> = [&self.opening[..]].into_iter().chain(fields).collect();
        parts.concat()
    }

    /// The fields that a revision changes.
    fn changed(&self, old: &Contents, new: &Contents) -> Vec<Field> {
        let mut fields: Vec<Field> = Vec::new();
        for (index, kept) in self.kept.iter().enumerate() {
            let content = &new[index];
            if *content != old[index] {
                fields.push(Field {
                    changed: content.len(),
                    kept: kept.clone(),
                });
            } else if let Some(field) = fields.last_mut() {
                field.kept.extend([&content[..], kept].concat());
            }
        }
        fields
    }
}

/// The sum over fields of changed length + k + 257 × w, where k is the first place of the kept
/// stretch that qualifies; none where a stretch has no such place.
fn ceiling(window: usize, fields: &[Field]) -> Option<usize> {
    let terms = fields.iter().map(|field| {
        let mut places = window + 1..=field.kept.len().saturating_sub(window);
        let place = places.find(|&place| qualifies(window, &field.kept, place))?;
        Some(field.changed + place + 257 * window)
    });
    terms.sum()
}

/// A history of jobs that fill in a template, and of others. Of each step it has the contents of the
/// fields, or none where it is another job's.
#[derive(Clone, Debug)]
struct Revisions {
    template: Template,
    contents: Vec<Option<Contents>>,
    history: History,
}

impl Case for Revisions {
    fn check(&self, tally: &mut Tally) -> Result<(), String> {
        let window = self.history.window;
        let answers = self.history.run(tally)?;
        check_pairs(window, &answers, tally)?;
        for (index, later) in answers.iter().enumerate() {
            for earlier in answers[..index].iter().filter(|answer| answer.taken) {
                self.check_pair(window as usize, earlier, later, tally)?;
            }
        }
        Ok(())
    }

    fn smaller(&self) -> Smaller<'_, Self> {
        let steps: Vec<usize> = (0..self.contents.len()).collect();
        let fewer: Vec<Self> = without_block(&steps)
            .map(|steps| self.only(&steps))
            .collect();
        let openings = smaller_bytes(&self.template.opening).map(|opening| Template {
            opening,
            ..self.template.clone()
        });
        let kept = (0..self.template.kept.len()).flat_map(move |index| {
            smaller_bytes(&self.template.kept[index]).map(move |kept| {
                let mut template = self.template.clone();
                template.kept[index] = kept;
                template
            })
        });
        let others = openings.chain(kept).map(|template| self.filling(template));
        Box::new(fewer.into_iter().chain(others))
    }
}

impl Revisions {
    /// Only these of the steps.
    fn only(&self, steps: &[usize]) -> Self {
        let mut fewer = self.clone();
        fewer.contents = steps
            .iter()
            .map(|&step| self.contents[step].clone())
            .collect();
        fewer.history.steps = steps
            .iter()
            .map(|&step| self.history.steps[step].clone())
            .collect();
        fewer
    }

    /// The same contents in another template.
    fn filling(&self, template: Template) -> Self {
        let mut other = self.clone();
        for (contents, step) in self.contents.iter().zip(&mut other.history.steps) {
            if let Some(contents) = contents {
                step.job = Lent::new(&template.job(contents));
            }
        }
        Revisions { template, ..other }
    }

    /// Checks the charge of a revision of an earlier job, where both fill in the template.
    fn check_pair(
        &self,
        window: usize,
        old: &Answer,
        revision: &Answer,
        tally: &mut Tally,
    ) -> Result<(), String> {
        let contents = [old, revision].map(|answer| self.contents[answer.step].as_ref());
        let [Some(before), Some(after)] = contents else {
            return Ok(());
        };
        let fields = self.template.changed(before, after);
        let Some(ceiling) = ceiling(window, &fields) else {
            return Ok(());
        };
        if revision.new_bytes > ceiling as u64 {
            return Err(format!(
                "The charge of step {}, from 0, is {}, over the ceiling {ceiling} of the {} fields \
                 that it changes in the job of step {}.",
                revision.step,
                revision.new_bytes,
                fields.len(),
                old.step,
            ));
        }
        if ceiling < revision.job.len() {
            let (charge, ceiling) = (revision.new_bytes, ceiling as u64);
            tally.count_fields(revision.taken, fields.len(), charge, ceiling);
        }
        Ok(())
    }
}

/// Checks the example in which the charge is the ceiling, then this many histories made at random.
pub fn run(random: &mut Random, histories: u64, tally: &mut Tally) -> Result<(), String> {
    check_tight_example()?;
    for _ in 0..histories {
        hold(&revisions(random), tally)?;
    }
    Ok(())
}

/// Checks that the sum is reached by a quote and by the take after it: in each of two fields 257 and 3
/// new bytes, where 1 byte is changed, the place is 2 and the window is 1.
fn check_tight_example() -> Result<(), String> {
    let rise: Vec<u8> = (0..=255).collect();
    let template = Template {
        kept: vec![[&[1, 2, 0], &rise[..]].concat(), vec![5, 6, 0]],
        opening: rise,
    };
    let contents = [[vec![], vec![]], [vec![3], vec![4]]].map(Vec::from);
    let steps = [(true, 0), (false, 1), (true, 1)].map(|(takes, index): (bool, usize)| Step {
        takes,
        job: Lent::new(&template.job(&contents[index])),
        recipe: Lent::new(&[9; 50]),
    });
    let history = History {
        window: 1,
        pool: Lent::new(&[9; 2_000]),
        directory: Lent::new(&[9; 100]),
        steps: steps.to_vec(),
    };
    let answers = history.run(&mut Tally::default())?;
    let charges = [1, 2].map(|step: usize| answers[step].new_bytes);
    let sum = ceiling(1, &template.changed(&contents[0], &contents[1]));
    if (charges, sum) == ([520; 2], Some(520)) {
        return Ok(());
    }
    Err(format!(
        "The example's charges are {charges:?} and its ceiling {sum:?}, not 520."
    ))
}

/// A history of a job, revisions of it and of them, and jobs between, each quoted, taken or both, with
/// some calls to be refused.
fn revisions(random: &mut Random) -> Revisions {
    let window = 1 + random.below(2) as u32;
    let template = template(random, window);
    let mut filled: Contents = template.kept.iter().map(|_| content(random)).collect();
    let mut contents = Vec::new();
    let mut steps = Vec::new();
    for _ in 0..3 + random.below(4) {
        steps.extend(Step::random(random, &template.job(&filled)));
        contents.resize(steps.len(), Some(filled.clone()));
        if random.once_in(3) {
            let length = random.pick(&[0, 10, 900]);
            let between = jobs::job(random, window, length);
            steps.extend(Step::random(random, &between));
            contents.resize(steps.len(), None);
        }
        for field in &mut filled {
            if !random.once_in(4) {
                *field = content(random);
            }
        }
    }
    Revisions {
        template,
        contents,
        history: History::random(random, window, (20_000, 8_000), steps),
    }
}

/// A short content of a field.
fn content(random: &mut Random) -> Vec<u8> {
    let length = random.below(12);
    random.bytes(length)
}

/// A template of two to four fields, for jobs of over 600 bytes. Before each field stands a rise as
/// long as a chunk can be without a cut.
fn template(random: &mut Random, window: u32) -> Template {
    let start = 150 + random.below(200);
    let mut opening = jobs::job(random, window, start);
    opening.extend(peak(random, window));
    opening.extend(rise(random, window));
    let mut kept: Vec<Vec<u8>> = (0..2 + random.below(3))
        .map(|_| peak(random, window))
        .collect();
    let last = kept.len() - 1;
    for stretch in &mut kept[..last] {
        stretch.extend(rise(random, window));
    }
    let ending = 50 + random.below(200);
    kept[last].extend(jobs::job(random, window, ending));
    Template { opening, kept }
}

/// A rise of 256 × w bytes, or of a few fewer.
fn rise(random: &mut Random, window: u32) -> Vec<u8> {
    let length = 256 * window as usize - random.pick(&[0, 0, 0, 0, 0, 1, 20]);
    jobs::long_rise(random, window as usize, length)
}

/// The start of a kept stretch: any bytes or, in most cases, `window` bytes, a larger one and `window`
/// more, after which a cut stands.
fn peak(random: &mut Random, window: u32) -> Vec<u8> {
    if random.once_in(4) {
        let length = 10 + random.below(60);
        return jobs::job(random, window, length);
    }
    let window = window as usize;
    let largest = 1 + random.below(255) as u8;
    let mut bytes: Vec<u8> = (0..2 * window + 1)
        .map(|_| random.below(largest as usize) as u8)
        .collect();
    bytes[window] = largest;
    bytes
}
