//! Streams of a given length, made as a build has them: classes that are declared and, some way behind, defined, pointers and lists of them, procedures,
//! methods, and ids of those. What comes next, and how far back it refers, is random with a fixed seed.
use crate::common::{self, Rng, Streams, FIRST};

// A group of records has fewer bytes.
const GROUP: usize = 800;
const PRIMITIVES: [u32; 8] = [0x74, 0x75, 0x40, 0x41, 0x30, 0x70, 0x77, 0x670];

// A class's records: its declaration, a pointer to it, and one to it as a constant.
#[derive(Clone, Copy)]
struct Class {
    declared: u32,
    pointer: u32,
    to_constant: u32,
}

struct Types {
    rng: Rng,
    records: Vec<Vec<u8>>,
    bytes: usize,
    classes: Vec<Class>,
    undefined: Vec<u32>,
    // What a parameter or a result may be, beside primitives.
    values: Vec<u32>,
    lists: Vec<u32>,
    procedures: Vec<u32>,
    // A method, with its class.
    methods: Vec<(u32, u32)>,
}

fn name(number: u32) -> String {
    match number % 5 {
        0 => format!("loom::Spindle{number}"),
        1 => format!("loom::gear::detail::Shuttle{number}"),
        2 => format!("std::vector<loom::Spindle{number},std::allocator<loom::Spindle{number}> >"),
        3 => format!("std::_Tree<std::_Tmap_traits<int,loom::Warp{number},std::less<int>,std::allocator<std::pair<int const ,loom::Warp{number}> >,0> >"),
        _ => format!("loom::thread<{number},1>"),
    }
}

// Mostly one of the last, at times any.
fn recent<T: Copy>(rng: &mut Rng, from: &[T]) -> T {
    let back = if rng.one_in(4) { from.len() } else { from.len().min(200) };
    from[from.len() - 1 - rng.below(back)]
}

impl Types {
    fn push(&mut self, record: Vec<u8>) -> u32 {
        self.bytes += record.len();
        self.records.push(record);
        FIRST + self.records.len() as u32 - 1
    }

    fn value(&mut self) -> u32 {
        if self.values.is_empty() || self.rng.below(20) < 9 {
            return self.rng.pick(&PRIMITIVES);
        }
        recent(&mut self.rng, &self.values)
    }

    fn class_record(&mut self, number: u32, forward: bool) -> u32 {
        let (kind, size) = ([0x1504, 0x1505][number as usize % 2], if forward { 0 } else { 8 + u64::from(number % 100) * 8 });
        self.push(common::class(kind, name(number).as_bytes(), Some(format!(".?AUC{number}@loom@@").as_bytes()), size, forward))
    }

    fn declare(&mut self) {
        let number = self.classes.len() as u32;
        let declared = self.class_record(number, true);
        let pointer = self.push(common::pointer(declared));
        let constant = self.push(common::modifier(declared, 1));
        let to_constant = self.push(common::pointer(constant));
        self.classes.push(Class { declared, pointer, to_constant });
        self.undefined.push(number);
        self.values.extend([declared, pointer, to_constant]);
    }

    fn define(&mut self) {
        let open = self.undefined.len();
        if open > 3 {
            let back = if self.rng.one_in(8) { open } else { open.min(20) };
            let number = self.undefined.remove(open - 1 - self.rng.below(back));
            self.push_fields();
            self.class_record(number, false);
        }
    }

    // A list of members, which is not read.
    fn push_fields(&mut self) {
        let len = 8 + self.rng.below(120);
        self.push(common::record(0x1203, &[&vec![0xf1; len]]));
    }

    fn push_list(&mut self) {
        let count = self.rng.pick(&[0, 1, 1, 1, 2, 2, 2, 3, 3, 4, 6]);
        let entries: Vec<_> = (0..count).map(|_| self.value()).collect();
        let list = self.push(common::arguments(&entries));
        self.lists.push(list);
    }

    fn push_procedure(&mut self) {
        let (list, result) = (recent(&mut self.rng, &self.lists), if self.rng.one_in(2) { 3 } else { self.value() });
        let procedure = self.push(common::procedure(result, list, 0));
        self.procedures.push(procedure);
    }

    fn push_method(&mut self) {
        let (class, list) = (recent(&mut self.rng, &self.classes), recent(&mut self.rng, &self.lists));
        let this = self.rng.pick(&[class.pointer, class.pointer, class.to_constant, class.to_constant, 0]);
        let result = if self.rng.one_in(2) { 3 } else { self.value() };
        let method = self.push(common::method(result, class.declared, this, list, 0));
        self.methods.push((class.declared, method));
    }

    fn push_value(&mut self, record: Vec<u8>) {
        let index = self.push(record);
        self.values.push(index);
    }

    fn group(&mut self) {
        match self.rng.below(100) {
            0..=7 => self.declare(),
            8..=15 => self.define(),
            16..=30 => {
                let (target, mode, is_const) = (self.value(), self.rng.pick(&[0, 0, 0, 1, 1, 4]), self.rng.one_in(5));
                self.push_value(common::pointer_of(target, mode, is_const, 8));
            }
            31..=33 => {
                let target = self.rng.pick(&PRIMITIVES);
                self.push_value(common::modifier(target, 1));
            }
            34..=55 => self.push_list(),
            56..=69 => self.push_procedure(),
            70..=85 => self.push_method(),
            86..=88 => {
                let procedure = recent(&mut self.rng, &self.procedures);
                let pointer = self.push(common::pointer(procedure));
                if self.rng.one_in(3) {
                    self.values.push(pointer);
                }
            }
            89..=92 => {
                let (element, count) = (self.value(), 1 + self.rng.below(40) as u64);
                self.push(common::array(element, count * 8));
            }
            93..=95 => {
                self.push_fields();
                let name = format!("loom::Mode{}", self.records.len());
                self.push_value(common::enumeration(name.as_bytes(), None, 0x74));
            }
            96 => {
                self.push_fields();
                let name = format!("loom::Either{}", self.records.len());
                self.push_value(common::union(name.as_bytes(), None, 16, false));
            }
            // a bit field and a list of methods, which are not read
            kind => {
                self.push(common::record(if kind == 97 { 0x1205 } else { 0x1206 }, &[&[0; 16]]));
            }
        }
    }
}

fn type_records(bytes: usize) -> Types {
    let mut types = Types {
        rng: Rng(0x70_09),
        records: Vec::new(),
        bytes: 56,
        classes: Vec::new(),
        undefined: Vec::new(),
        values: Vec::new(),
        lists: Vec::new(),
        procedures: Vec::new(),
        methods: Vec::new(),
    };
    types.declare();
    types.push_list();
    types.push_procedure();
    types.push_method();
    while types.bytes + GROUP < bytes {
        types.group();
    }
    types
}

fn id_records(types: &Types, bytes: usize) -> Vec<Vec<u8>> {
    let mut rng = Rng(0x80_0a);
    let (mut records, mut scopes, mut len) = (vec![common::string_id(0, b"loom::gear")], vec![FIRST], 56);
    while len + GROUP < bytes && records.len() * 2 < types.records.len() {
        let index = FIRST + records.len() as u32;
        let name = format!("{}{}", rng.pick(&["advance", "tie", "operator()", "~Spindle", "wind_up_the_warp_of"]), rng.below(1000));
        records.push(match rng.below(20) {
            0 => {
                scopes.push(index);
                common::string_id(0, format!("loom::{name}").as_bytes())
            }
            1 => common::string_id(0, format!("C:\\build\\loom\\source\\{name}.cpp").as_bytes()),
            // where a class was written, which is not read
            2..=4 => common::record(0x1606, &[&[0; 12]]),
            5..=11 => {
                let scope = if rng.one_in(2) { 0 } else { recent(&mut rng, &scopes) };
                common::function_id(scope, recent(&mut rng, &types.procedures), name.as_bytes())
            }
            _ => {
                let (class, method) = recent(&mut rng, &types.methods);
                common::member_id(class, method, name.as_bytes())
            }
        });
        len += records[records.len() - 1].len();
    }
    records
}

/// A pair of streams of at most so many bytes each.
pub fn streams(bytes: usize) -> Streams {
    let types = type_records(bytes);
    let ids = id_records(&types, bytes);
    let (type_count, id_count) = (types.records.len() as u32, ids.len() as u32);
    Streams { name: crate::table::thousands(bytes as f64), types: common::stream(&types.records), ids: common::stream(&ids), type_count, id_count }
}
