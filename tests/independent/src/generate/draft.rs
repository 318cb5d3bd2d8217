//! Drafts of plants and offers: what a file says, field by field, before it becomes bytes. Any
//! field can be set wrong, which a type for good files only would forbid.

use crate::facts::Facts;
use crate::write::Fields;

#[derive(Clone)]
pub struct ActionDraft {
    pub needs: Facts,
    pub makes: Facts,
    pub shortest: u32,
    pub longest: u32,
    /// The number of allocations that is written, whatever their true number.
    pub n: u8,
    pub spare: [u8; 3],
    /// Resource, offset and length.
    pub allocations: Vec<[u32; 3]>,
}

impl ActionDraft {
    pub fn new(needs: Facts, makes: Facts, allocations: &[[u32; 3]]) -> Self {
        ActionDraft {
            needs,
            makes,
            shortest: 1,
            longest: 1,
            n: allocations.len() as u8,
            spare: [0; 3],
            allocations: allocations.to_vec(),
        }
    }

    pub fn lasting(mut self, shortest: u32, longest: u32) -> Self {
        self.shortest = shortest;
        self.longest = longest;
        self
    }

    fn write(&self, out: &mut Vec<u8>) {
        let (needs, makes) = (self.needs, self.makes);
        push_words(out, &[needs.positive, needs.negative]);
        push_words(out, &[makes.positive, makes.negative]);
        push_words(out, &[self.shortest, self.longest]);
        out.push(self.n);
        out.extend(self.spare);
        push_words(out, self.allocations.as_flattened());
    }
}

/// What the action says as fields: the spare bytes, and allocations past the fourth, have none.
impl From<&ActionDraft> for Fields {
    fn from(draft: &ActionDraft) -> Self {
        let mut fields = Fields {
            needs: draft.needs,
            makes: draft.makes,
            shortest: draft.shortest,
            longest: draft.longest,
            n: u32::from(draft.n),
            ..Fields::default()
        };
        let listed = fields.listed();
        for (slot, allocation) in fields.slots[..listed].iter_mut().zip(&draft.allocations) {
            *slot = *allocation;
        }
        fields
    }
}

/// A plant file taken apart at its parts.
#[derive(Clone)]
pub struct PlantDraft {
    pub records: Vec<u8>,
    pub index: Vec<u32>,
    pub index_start: u32,
    pub count: u32,
    pub mark: [u8; 4],
}

impl PlantDraft {
    /// The right layout for these actions.
    pub fn new(actions: &[ActionDraft]) -> Self {
        let mut records = Vec::new();
        let mut index = Vec::new();
        for action in actions {
            index.push(records.len() as u32);
            action.write(&mut records);
        }
        PlantDraft {
            index_start: records.len() as u32,
            count: actions.len() as u32,
            records,
            index,
            mark: *b"PLNT",
        }
    }

    /// Other record bytes of another length, with the index start moved so that sizes add up.
    pub fn set_records(&mut self, records: Vec<u8>) {
        self.index_start = records.len() as u32;
        self.records = records;
    }

    pub fn bytes(&self) -> Vec<u8> {
        let mut bytes = self.records.clone();
        push_words(&mut bytes, &self.index);
        push_words(&mut bytes, &[self.index_start, self.count]);
        bytes.extend(self.mark);
        bytes
    }
}

/// The file of a plant with these actions.
pub fn plant_file(actions: &[ActionDraft]) -> Vec<u8> {
    PlantDraft::new(actions).bytes()
}

#[derive(Clone)]
pub struct StepDraft {
    pub action: u32,
    pub places: Vec<u32>,
}

#[derive(Clone, Default)]
pub struct OfferDraft {
    pub batch: u32,
    pub known: Facts,
    pub goal: Facts,
    /// 0 is no due time.
    pub due: u32,
    pub steps: Vec<StepDraft>,
    /// The step count that is written, if not the true one.
    pub claimed_steps: Option<u32>,
    /// Bytes after the last step.
    pub left_over: Vec<u8>,
}

impl OfferDraft {
    /// An offer of these actions, all places 0, with no due time.
    pub fn new(known: Facts, goal: Facts, actions: &[ActionDraft], chain: &[usize]) -> Self {
        let step = |&action: &usize| StepDraft {
            action: action as u32,
            places: vec![0; actions[action].allocations.len()],
        };
        OfferDraft {
            known,
            goal,
            steps: chain.iter().map(step).collect(),
            ..Self::default()
        }
    }

    /// An offer of one action alone, its needs known and its makes wanted, so that its facts pass.
    pub fn alone(number: u32, action: &Fields) -> Self {
        let step = StepDraft {
            action: number,
            places: vec![0; action.listed()],
        };
        OfferDraft {
            known: action.needs,
            goal: action.makes,
            steps: vec![step],
            ..Self::default()
        }
    }

    /// The same with this due time.
    pub fn due(mut self, due: u32) -> Self {
        self.due = due;
        self
    }

    pub fn bytes(&self) -> Vec<u8> {
        let mut bytes = Vec::new();
        push_words(
            &mut bytes,
            &[self.batch, self.known.positive, self.known.negative],
        );
        push_words(&mut bytes, &[self.goal.positive, self.goal.negative]);
        let step_count = self.claimed_steps.unwrap_or(self.steps.len() as u32);
        push_words(&mut bytes, &[step_count, self.due]);
        for step in &self.steps {
            push_words(&mut bytes, &[step.action]);
            push_words(&mut bytes, &step.places);
        }
        bytes.extend(&self.left_over);
        bytes
    }
}

fn push_words(out: &mut Vec<u8>, words: &[u32]) {
    out.extend(words.iter().flat_map(|word| word.to_le_bytes()));
}

/// The plant of document 01's proving table.
pub fn proving_plant() -> Vec<ActionDraft> {
    let fact = |number: u32| 1 << number;
    vec![
        ActionDraft::new(
            Facts::new(fact(0), 0),
            Facts::new(fact(1), fact(0)),
            &[[0, 0, 10]],
        )
        .lasting(10, 20),
        ActionDraft::new(Facts::new(fact(1), 0), Facts::new(fact(2), fact(1)), &[]).lasting(5, 5),
        ActionDraft::new(Facts::new(fact(3), 0), Facts::default(), &[]),
    ]
}

/// Job J of the proving table.
pub fn proving_offer() -> OfferDraft {
    OfferDraft::new(
        Facts::new(1, 0),
        Facts::new(4, 0),
        &proving_plant(),
        &[0, 1],
    )
}
