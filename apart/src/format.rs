//! What the bytes of one block mean, and the bytes that are written. All numbers lie low byte first.

/// How many bytes a block has.
pub const BLOCK: usize = 512;
/// The most leaves of one file or folder.
pub const LEAVES: u16 = 64;
/// The most bytes of one file leaf, and the least room of a buffer to read into.
pub const LEAF_BYTES: usize = 496;
/// Cells in a folder's leaf, and the bytes of one.
pub const CELLS: usize = 15;
pub const CELL: usize = 32;
/// Where a body's payload begins.
pub const HEAD: usize = 16;
/// The longest name.
pub const NAME: usize = 24;

/// The bytes of a block.
pub type Block = [u8; BLOCK];
/// A block of zeros.
pub const ZEROS: Block = [0; BLOCK];

/// How large a card is: its blocks and its slots.
#[derive(Clone, Copy, PartialEq, Eq, Debug)]
pub struct Geometry {
    pub blocks: u16,
    pub slots: u16,
}

impl Geometry {
    /// The geometry of so many blocks and slots, if that is within the limits.
    pub fn new(blocks: u16, slots: u16) -> Option<Geometry> {
        let fits = (2..=256).contains(&slots) && blocks <= 4096 && blocks >= slots + 2;
        fits.then_some(Geometry { blocks, slots })
    }

    /// The first body.
    pub fn first_body(self) -> u16 {
        self.slots + 1
    }

    /// Whether a block is a body.
    pub fn is_body(self, block: u16) -> bool {
        self.first_body() <= block && block < self.blocks
    }
}

/// File or folder.
#[derive(Clone, Copy, PartialEq, Eq, Debug)]
pub enum Kind {
    File,
    Folder,
}

/// A slot with the identity of its holder.
#[derive(Clone, Copy, PartialEq, Eq, Debug, Hash, PartialOrd, Ord)]
pub struct Handle {
    pub slot: u16,
    pub identity: u32,
}

/// The root is slot 0 with identity 1, and its own parent.
pub const ROOT: Handle = Handle { slot: 0, identity: 1 };

/// A well-formed slot: the file or folder, and the blocks of its leaves.
#[derive(Clone, PartialEq, Eq, Debug)]
pub struct Slot {
    pub kind: Kind,
    pub identity: u32,
    pub parent: Handle,
    pub numbers: Vec<u16>,
}

/// A well-formed body: whose leaf it is, and the bytes in use.
#[derive(Clone, PartialEq, Eq, Debug)]
pub struct Body {
    pub kind: Kind,
    pub owner: Handle,
    pub leaf: u16,
    pub bytes: Vec<u8>,
}

/// A well-formed entry.
#[derive(Clone, PartialEq, Eq, Debug)]
pub struct Entry {
    pub name: Vec<u8>,
    pub child: Handle,
}

fn two(bytes: &[u8], at: usize) -> u16 {
    u16::from_le_bytes([bytes[at], bytes[at + 1]])
}

fn four(bytes: &[u8], at: usize) -> u32 {
    u32::from_le_bytes([bytes[at], bytes[at + 1], bytes[at + 2], bytes[at + 3]])
}

fn put_two(bytes: &mut [u8], at: usize, value: u16) {
    bytes[at..at + 2].copy_from_slice(&value.to_le_bytes());
}

fn put_four(bytes: &mut [u8], at: usize, value: u32) {
    bytes[at..at + 4].copy_from_slice(&value.to_le_bytes());
}

/// What block 0 says of the card's size, if it is a cover.
pub fn parse_cover(block: &Block) -> Option<Geometry> {
    if block[0] != 1 || block[1] != 1 {
        return None;
    }
    Geometry::new(two(block, 2), two(block, 4))
}

/// A block of the slot region as a slot.
pub fn parse_slot(block: &Block, geometry: Geometry) -> Option<Slot> {
    let kind = match block[0] {
        2 => Kind::File,
        3 => Kind::Folder,
        _ => return None,
    };
    let count = two(block, 2);
    let identity = four(block, 4);
    let parent = Handle { slot: two(block, 12), identity: four(block, 8) };
    if count > LEAVES || identity == 0 || parent.identity == 0 || parent.slot >= geometry.slots {
        return None;
    }
    let numbers: Vec<u16> = (0..count as usize).map(|k| two(block, 16 + 2 * k)).collect();
    if !numbers.iter().all(|&b| geometry.is_body(b)) {
        return None;
    }
    Some(Slot { kind, identity, parent, numbers })
}

/// A block of the body region as a body.
pub fn parse_body(block: &Block, geometry: Geometry) -> Option<Body> {
    let kind = match block[0] {
        4 => Kind::File,
        5 => Kind::Folder,
        _ => return None,
    };
    let owner = Handle { slot: two(block, 2), identity: four(block, 4) };
    let leaf = two(block, 8);
    let used = two(block, 10) as usize;
    let length_fits = match kind {
        Kind::File => used <= LEAF_BYTES,
        Kind::Folder => used == CELLS * CELL,
    };
    if owner.slot >= geometry.slots || owner.identity == 0 || leaf >= LEAVES || !length_fits {
        return None;
    }
    Some(Body { kind, owner, leaf, bytes: block[HEAD..HEAD + used].to_vec() })
}

/// Whether bytes are a name.
pub fn is_name(bytes: &[u8]) -> bool {
    !bytes.is_empty() && bytes.len() <= NAME && bytes.iter().all(|&b| b != 0 && b != b'/')
}

/// A cell as an entry, if it is well formed. A blank cell is none: its length is 0.
pub fn parse_entry(cell: &[u8], geometry: Geometry) -> Option<Entry> {
    let length = cell[0] as usize;
    let child = Handle { slot: two(cell, 2), identity: four(cell, 4) };
    if length > NAME || child.slot == 0 || child.slot >= geometry.slots || child.identity == 0 {
        return None;
    }
    let name = cell[8..8 + length].to_vec();
    is_name(&name).then_some(Entry { name, child })
}

/// The bytes of a cover.
pub fn cover(geometry: Geometry) -> Block {
    let mut block = ZEROS;
    block[0] = 1;
    block[1] = 1;
    put_two(&mut block, 2, geometry.blocks);
    put_two(&mut block, 4, geometry.slots);
    block
}

/// The bytes of a slot.
pub fn slot_block(slot: &Slot) -> Block {
    let mut block = ZEROS;
    block[0] = match slot.kind {
        Kind::File => 2,
        Kind::Folder => 3,
    };
    put_two(&mut block, 2, slot.numbers.len() as u16);
    put_four(&mut block, 4, slot.identity);
    put_four(&mut block, 8, slot.parent.identity);
    put_two(&mut block, 12, slot.parent.slot);
    for (k, &number) in slot.numbers.iter().enumerate() {
        put_two(&mut block, 16 + 2 * k, number);
    }
    block
}

/// The bytes of a body; what follows the bytes in use is zero.
pub fn body_block(body: &Body) -> Block {
    let mut block = ZEROS;
    block[0] = match body.kind {
        Kind::File => 4,
        Kind::Folder => 5,
    };
    put_two(&mut block, 2, body.owner.slot);
    put_four(&mut block, 4, body.owner.identity);
    put_two(&mut block, 8, body.leaf);
    put_two(&mut block, 10, body.bytes.len() as u16);
    block[HEAD..HEAD + body.bytes.len()].copy_from_slice(&body.bytes);
    block
}

/// The 32 bytes of an entry.
pub fn entry_cell(entry: &Entry) -> [u8; CELL] {
    let mut cell = [0; CELL];
    cell[0] = entry.name.len() as u8;
    put_two(&mut cell, 2, entry.child.slot);
    put_four(&mut cell, 4, entry.child.identity);
    cell[8..8 + entry.name.len()].copy_from_slice(&entry.name);
    cell
}

/// The highest identity that block `number` of a card tells, or 0.
pub fn highest_told(block: &Block, number: u16, geometry: Geometry) -> u32 {
    if (1..=geometry.slots).contains(&number) {
        return parse_slot(block, geometry).map_or(0, |s| s.identity.max(s.parent.identity));
    }
    if !geometry.is_body(number) {
        return 0;
    }
    let Some(body) = parse_body(block, geometry) else { return 0 };
    let mut highest = body.owner.identity;
    if body.kind == Kind::Folder {
        for cell in body.bytes.chunks(CELL) {
            if let Some(entry) = parse_entry(cell, geometry) {
                highest = highest.max(entry.child.identity);
            }
        }
    }
    highest
}
