//! Reading a circuit file with refusals 1 to 14: what all fields are tested for,
//! then a function for each tag. Tests stand in the order of their numbers, 9
//! right after 4.

use crate::bodies::{bridge_of, edges_of, inputs_of, instance_of, module_of, pass_of, vector_of};
use crate::circuit::{Circuit, Edge, Instance, Kind, ListedBridge, ModuleType};
use crate::conduction::is_complementary;
use crate::faults::{faults_of, fits, user_list, EXHAUSTIVE};
use crate::fields::{cut, Field};
use crate::format::{
    Tag, HIGHEST_LIST, HIGHEST_NODE, LONGEST_FILE, MOST_BRIDGES, MOST_EDGES, MOST_FAULTS,
    MOST_INPUTS, MOST_INSTANCES, MOST_LABELS, MOST_TYPES, MOST_VECTORS,
};
use crate::refusal::{refuse_if, Refusal};

pub fn read(bytes: &[u8]) -> Result<Circuit, Refusal> {
    let (circuit, refusal) = read_to_refusal(bytes);
    refusal.map_or(Ok(circuit), Err)
}

/// What was read before the refusal, if there is one, and the refusal.
pub fn read_to_refusal(bytes: &[u8]) -> (Circuit, Option<Refusal>) {
    let mut reading = Reading::default();
    let refusal = reading.take_file(bytes).err();
    if refusal.is_some() {
        reading.drop_unfinished_type();
    }
    (reading.circuit, refusal)
}

/// What is known so far: the circuit, the tag of the field before, whether the
/// field that is being taken is an edge, the place of the latest type while it
/// is not judged, and the faults of the instances.
#[derive(Default)]
struct Reading {
    circuit: Circuit,
    latest_tag: Option<Tag>,
    is_at_edge: bool,
    unjudged: Option<usize>,
    faults: usize,
}

impl Reading {
    fn take_file(&mut self, bytes: &[u8]) -> Result<(), Refusal> {
        refuse_if(bytes.len() > LONGEST_FILE, 1, 0)?;
        let mut place = 0;
        while place < bytes.len() {
            let field = cut(bytes, place)?;
            self.take(&field)?;
            place = field.end();
        }
        self.finish(bytes.len())
    }

    /// In a refused file the latest type is finished when no edge of it is
    /// refused and it is complementary.
    fn drop_unfinished_type(&mut self) {
        let is_latest_open = self
            .latest_tag
            .is_some_and(|tag| Tag::Edge.may_follow(Some(tag)));
        let is_finished =
            !self.is_at_edge && self.circuit.types.last().is_some_and(is_complementary);
        if is_latest_open && !is_finished {
            self.circuit.types.pop();
        }
    }

    fn take(&mut self, field: &Field) -> Result<(), Refusal> {
        let tag = Tag::of(field.tag);
        self.is_at_edge = tag.is_some_and(Tag::is_edge);
        let tag = tag.ok_or(refused(3, field))?;
        refuse_if(!tag.may_follow(self.latest_tag), 4, field.place)?;
        if !tag.is_edge() {
            self.judge_latest_type()?;
        }
        let is_allowed = tag.allows(field.body.len(), self.circuit.inputs);
        refuse_if(!is_allowed, 5, field.place)?;
        match tag {
            Tag::Inputs => self.take_inputs(field)?,
            Tag::Type => self.take_type(field)?,
            Tag::Edge => self.take_edge(field)?,
            Tag::Bridge => self.take_bridge(field)?,
            Tag::Instance => self.take_instance(field)?,
            Tag::Vector => self.take_vector(field)?,
            Tag::Pass => self.take_pass(field)?,
        }
        self.latest_tag = Some(tag);
        self.is_at_edge = false;
        Ok(())
    }

    fn judge_latest_type(&mut self) -> Result<(), Refusal> {
        match (self.unjudged.take(), self.circuit.types.last()) {
            (Some(place), Some(module)) => refuse_if(!is_complementary(module), 9, place),
            _ => Ok(()),
        }
    }

    fn take_inputs(&mut self, field: &Field) -> Result<(), Refusal> {
        let inputs = inputs_of(field.body);
        refuse_if(!(1..=MOST_INPUTS).contains(&inputs), 7, field.place)?;
        self.circuit.inputs = inputs;
        Ok(())
    }

    fn take_type(&mut self, field: &Field) -> Result<(), Refusal> {
        refuse_if(self.circuit.types.len() == MOST_TYPES, 6, field.place)?;
        let module = module_of(field.body);
        let in_range = (2..=HIGHEST_NODE).contains(&module.highest)
            && (2..=module.highest).contains(&module.output)
            && (1..=MOST_LABELS).contains(&module.labels);
        refuse_if(!in_range, 7, field.place)?;
        self.unjudged = Some(field.place);
        self.circuit.types.push(module);
        Ok(())
    }

    /// The order has asked for a type already; this says the same of its record.
    fn latest_type(&mut self, edge: &Field) -> Result<&mut ModuleType, Refusal> {
        self.circuit.types.last_mut().ok_or(refused(4, edge))
    }

    fn take_edge(&mut self, field: &Field) -> Result<(), Refusal> {
        let module = self.latest_type(field)?;
        let (ends, labels) = field.body.split_at(2);
        let edges = module.edges.len() + labels.len();
        refuse_if(edges > MOST_EDGES, 6, field.place)?;
        let in_range = ends.iter().all(|&node| node <= module.highest)
            && labels.iter().all(|&label| label < module.labels);
        refuse_if(!in_range, 7, field.place)?;
        let edges = edges_of(field.body, module.output).ok_or(refused(8, field))?;
        module.edges.extend(edges);
        Ok(())
    }

    /// Between any two nodes, so there is no channel rule to break.
    fn take_pass(&mut self, field: &Field) -> Result<(), Refusal> {
        let module = self.latest_type(field)?;
        refuse_if(module.edges.len() == MOST_EDGES, 6, field.place)?;
        let pass = pass_of(field.body).filter(|pass| is_pass_of(module, pass));
        module.edges.push(pass.ok_or(refused(7, field))?);
        Ok(())
    }

    fn take_bridge(&mut self, field: &Field) -> Result<(), Refusal> {
        refuse_if(self.circuit.bridges.len() == MOST_BRIDGES, 6, field.place)?;
        let listed = bridge_of(field.body).filter(is_in_range);
        let listed = listed.ok_or(refused(7, field))?;
        self.circuit.bridges.push(listed);
        Ok(())
    }

    fn take_instance(&mut self, field: &Field) -> Result<(), Refusal> {
        let place = field.place;
        refuse_if(self.circuit.instances.len() == MOST_INSTANCES, 6, place)?;
        let instance = instance_of(field.body);
        let types = 1..=self.circuit.types.len();
        let in_range =
            types.contains(&usize::from(instance.type_number)) && instance.choice >= EXHAUSTIVE;
        refuse_if(!in_range, 7, place)?;
        refuse_if(!self.has_good_references(&instance), 10, place)?;
        self.check_list(&instance, place)?;
        self.circuit.instances.push(instance);
        Ok(())
    }

    fn has_good_references(&self, instance: &Instance) -> bool {
        let labels = usize::from(self.circuit.type_of(instance).labels);
        let earlier = self.circuit.instances.len();
        instance.references.len() == labels
            && instance.references.iter().all(|&reference| {
                let number = usize::from(reference.unsigned_abs());
                let most = if reference > 0 {
                    self.circuit.inputs
                } else {
                    earlier
                };
                (1..=most).contains(&number)
            })
    }

    fn check_list(&mut self, instance: &Instance, place: usize) -> Result<(), Refusal> {
        let module = self.circuit.type_of(instance);
        if instance.choice > 0 {
            let list = user_list(&self.circuit.bridges, instance.choice);
            refuse_if(!list.iter().all(|bridge| fits(bridge, module)), 11, place)?;
            refuse_if(list.is_empty(), 12, place)?;
        }
        self.faults += faults_of(&self.circuit, instance).len();
        refuse_if(self.faults > MOST_FAULTS, 13, place)
    }

    fn take_vector(&mut self, field: &Field) -> Result<(), Refusal> {
        refuse_if(self.circuit.vectors.len() == MOST_VECTORS, 6, field.place)?;
        let vector = vector_of(field.body).ok_or(refused(7, field))?;
        self.circuit.vectors.push(vector);
        Ok(())
    }

    fn finish(&mut self, length: usize) -> Result<(), Refusal> {
        self.judge_latest_type()?;
        let circuit = &self.circuit;
        let missing =
            circuit.inputs == 0 || circuit.instances.is_empty() || circuit.vectors.is_empty();
        refuse_if(missing, 14, length)
    }
}

fn refused(number: u8, field: &Field) -> Refusal {
    let place = field.place;
    Refusal { number, place }
}

/// Whether a pass transistor joins two different nodes of this type at a label of it.
fn is_pass_of(module: &ModuleType, pass: &Edge) -> bool {
    let [a, b] = pass.ends;
    a <= module.highest && b <= module.highest && a != b && pass.label < module.labels
}

fn is_in_range(listed: &ListedBridge) -> bool {
    let bridge = &listed.bridge;
    let second_fits = match bridge.kind {
        Kind::Nodes => bridge.second <= HIGHEST_NODE && bridge.first != bridge.second,
        Kind::Label => bridge.second < MOST_LABELS,
    };
    (1..=HIGHEST_LIST).contains(&listed.list) && bridge.first <= HIGHEST_NODE && second_fits
}
