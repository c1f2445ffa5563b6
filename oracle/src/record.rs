//! Records as bytes (01, "Records"): one reader for events, one writer for output.

use std::sync::atomic::{AtomicBool, Ordering};

pub const HEADER: usize = 32;
pub const NODE: usize = 12;
/// Where a record's peer, its whole length and its number stand.
pub const PEER: usize = 4;
pub const LENGTH: usize = 22;
pub const NUMBER: usize = 24;
pub const MOST_NODES: u8 = 32;
pub const MOST_DATA: usize = 16;

/// 01's code 3: the event record is malformed.
pub const MALFORMED: u8 = 3;
/// 01's code 4: the node count exceeds 32.
pub const NODE_COUNT: u8 = 4;

/// Byte 0.
pub mod kind {
    pub const MESSAGE: u8 = 0;
    pub const DO_SHUFFLE: u8 = 1;
    pub const DO_MAINTENANCE: u8 = 2;
    pub const PENDING_NEIGHBOR_REQUEST: u8 = 3;
    pub const RETRY_JOIN: u8 = 4;
    pub const PEER_DISCONNECTED: u8 = 5;
    pub const REQUEST_JOIN: u8 = 6;
    pub const UPDATE_PEER_DATA: u8 = 7;
    pub const QUIT: u8 = 8;
    pub const NEIGHBOR_UP: u8 = 9;
    pub const NEIGHBOR_DOWN: u8 = 10;
    pub const PEER_DATA: u8 = 11;
    pub const EVICTED: u8 = 12;
    /// An event of ours (02, S-14).
    pub const PIN: u8 = 13;
}

/// Byte 1.
pub mod message {
    pub const JOIN: u8 = 0;
    pub const FORWARD_JOIN: u8 = 1;
    pub const SHUFFLE: u8 = 2;
    pub const SHUFFLE_REPLY: u8 = 3;
    pub const NEIGHBOR: u8 = 4;
    pub const DISCONNECT: u8 = 5;
}

static TELLS_EVICTED: AtomicBool = AtomicBool::new(true);

/// Whether stations of this process write records of kind 12 (02, S-2); the Rust itself writes none.
pub fn tell_evicted(told: bool) {
    TELLS_EVICTED.store(told, Ordering::Relaxed);
}

pub fn tells_evicted() -> bool {
    TELLS_EVICTED.load(Ordering::Relaxed)
}

/// A station's number (02, S-8).
pub type Peer = u64;

/// A node's id and its data.
pub type NodeParts<'a> = (Peer, Option<&'a [u8]>);

#[derive(Clone, Debug, Default, PartialEq, Eq)]
pub struct Node {
    pub id: Peer,
    pub data: Option<Vec<u8>>,
}

impl Node {
    fn parts(&self) -> NodeParts<'_> {
        (self.id, self.data.as_deref())
    }
}

/// A record's fields; the node count and the whole length follow from the nodes.
#[derive(Clone, Debug, Default, PartialEq, Eq)]
pub struct Record<N = Vec<Node>> {
    pub kind: u8,
    pub message: u8,
    pub flags: u8,
    pub peer: Peer,
    pub second: u64,
    pub ttl: u16,
    pub number: u64,
    pub nodes: N,
}

impl<N: Default> Record<N> {
    pub fn of(kind: u8, peer: Peer) -> Self {
        Self {
            kind,
            peer,
            ..Self::default()
        }
    }
}

impl<N> Record<N> {
    pub fn message(message: u8, peer: Peer, nodes: N) -> Self {
        Record::<()>::of(kind::MESSAGE, peer).with(message, nodes)
    }

    /// The same fields but for the message, and the nodes.
    fn with<M>(self, message: u8, nodes: M) -> Record<M> {
        Record {
            kind: self.kind,
            message,
            flags: self.flags,
            peer: self.peer,
            second: self.second,
            ttl: self.ttl,
            number: self.number,
            nodes,
        }
    }

    pub fn with_nodes<M>(self, nodes: M) -> Record<M> {
        let message = self.message;
        self.with(message, nodes)
    }
}

impl Record {
    pub fn write(&self) -> Vec<u8> {
        let data = |node: &Node| node.data.as_ref().map_or(0, Vec::len);
        let size: usize = self.nodes.iter().map(|node| NODE + data(node)).sum();
        let mut bytes = vec![0; HEADER + size];
        let nodes = self.nodes.iter().map(Node::parts);
        Writer::new(&mut bytes).put(Record::clone(self).with_nodes(nodes));
        bytes
    }

    /// Reads an event; refused as `View::event` says.
    pub fn read_event(bytes: &[u8]) -> Result<Self, u8> {
        let view = View::event(bytes)?;
        let node = |(id, data): NodeParts| Node {
            id,
            data: data.map(<[u8]>::to_vec),
        };
        Ok(view.fields().with_nodes(view.nodes().map(node).collect()))
    }
}

/// Lent bytes that take records from the front on; one that does not fit is refused (9).
pub struct Writer<'a> {
    out: &'a mut [u8],
    written: usize,
    /// The messages put, by byte 1.
    pub sent: [u64; 6],
}

impl<'a> Writer<'a> {
    pub fn new(out: &'a mut [u8]) -> Self {
        Self {
            out,
            written: 0,
            sent: [0; 6],
        }
    }

    pub fn written(&self) -> usize {
        self.written
    }

    pub fn put<'n>(&mut self, record: Record<impl Iterator<Item = NodeParts<'n>> + Clone>) {
        let (mut count, mut size) = (0, HEADER);
        for (_, data) in record.nodes.clone() {
            count += 1;
            size += NODE + data.map_or(0, <[u8]>::len);
        }
        let rest = self.put_header(&record, count, size);
        put_nodes(rest, count, record.nodes);
        if record.kind == kind::MESSAGE {
            self.sent[usize::from(record.message)] += 1;
        }
    }

    /// A record without nodes, and the bytes that stand after its header.
    pub fn put_tail(&mut self, record: Record<()>, tail: &[u8]) {
        let rest = self.put_header(&record, 0, HEADER + tail.len());
        rest.copy_from_slice(tail);
    }

    /// The header of a record of so many nodes and bytes; what is left of them is to be filled.
    fn put_header<N>(&mut self, record: &Record<N>, count: usize, size: usize) -> &mut [u8] {
        let Some(bytes) = self.out[self.written..].get_mut(..size) else {
            refusal::refuse(refusal::ROOM)
        };
        self.written += size;
        let (head, rest) = bytes.split_at_mut(HEADER);
        head[..4].copy_from_slice(&[record.kind, record.message, record.flags, count as u8]);
        head[4..12].copy_from_slice(&record.peer.to_le_bytes());
        head[12..20].copy_from_slice(&record.second.to_le_bytes());
        head[20..22].copy_from_slice(&record.ttl.to_le_bytes());
        head[22..24].copy_from_slice(&(size as u16).to_le_bytes());
        head[24..32].copy_from_slice(&record.number.to_le_bytes());
        rest
    }
}

/// `count` nodes and then their data, into as many bytes as they take.
fn put_nodes<'n>(out: &mut [u8], count: usize, nodes: impl Iterator<Item = NodeParts<'n>>) {
    let (entries, mut rest) = out.split_at_mut(NODE * count);
    let mut reached = HEADER + NODE * count;
    for (entry, (id, data)) in entries.chunks_exact_mut(NODE).zip(nodes) {
        entry[..8].copy_from_slice(&id.to_le_bytes());
        let Some(data) = data else {
            entry[8..].fill(0);
            continue;
        };
        entry[8..10].copy_from_slice(&(reached as u16).to_le_bytes());
        entry[10..].copy_from_slice(&[data.len() as u8, 1]);
        let (place, after) = rest.split_at_mut(data.len());
        place.copy_from_slice(data);
        rest = after;
        reached += data.len();
    }
}

/// A record's bytes, read and found in form.
#[derive(Clone, Copy)]
pub struct View<'a> {
    bytes: &'a [u8],
}

impl<'a> View<'a> {
    /// Reads an event. Order of refusals: 3 if under 32 bytes, 4, any other 3.
    pub fn event(bytes: &'a [u8]) -> Result<Self, u8> {
        if bytes.len() < HEADER {
            return Err(MALFORMED);
        }
        if bytes[3] > MOST_NODES {
            return Err(NODE_COUNT);
        }
        let view = Self { bytes };
        let fields = view.fields();
        let known = fields.kind <= kind::QUIT || fields.kind == kind::PIN;
        let allowed = known && !(fields.is_timer() && fields.second != 0);
        let length = length_of(bytes) == bytes.len();
        let in_form = allowed && length && fields.fit() && view.nodes_fit(&fields);
        in_form.then_some(view).ok_or(MALFORMED)
    }

    /// The header's fields.
    pub fn fields(&self) -> Record<()> {
        header_of(self.bytes)
    }

    /// The nodes' entries, twelve bytes each; none where they do not fit in the bytes.
    fn entries(&self) -> std::slice::ChunksExact<'a, u8> {
        let end = HEADER + NODE * usize::from(self.bytes[3]);
        self.bytes
            .get(HEADER..end)
            .unwrap_or(&[])
            .chunks_exact(NODE)
    }

    pub fn nodes(&self) -> impl Iterator<Item = NodeParts<'a>> + Clone + 'a {
        let bytes = self.bytes;
        self.entries().map(move |entry| {
            let (offset, len) = (usize::from(u16_at(entry, 8)), usize::from(entry[10]));
            let data = (entry[11] == 1).then(|| &bytes[offset..offset + len]);
            (u64_at(entry, 0), data)
        })
    }

    /// Whether the nodes are those that the fields ask for, and their data stand in order without
    /// gaps up to the last byte.
    fn nodes_fit(&self, fields: &Record<()>) -> bool {
        let count = usize::from(self.bytes[3]);
        let (nameless, with_data) = (fields.is_nameless(), fields.is_data());
        let mut reached = HEADER + NODE * count;
        let in_order = self.entries().all(|entry| {
            let (offset, len) = (usize::from(u16_at(entry, 8)), usize::from(entry[10]));
            let data_fits = match entry[11] {
                0 => offset == 0 && len == 0 && !with_data,
                1 => offset == reached && len <= MOST_DATA,
                _ => false,
            };
            reached += len;
            data_fits && (!nameless || u64_at(entry, 0) == 0)
        });
        let asked = fields.is_shuffle() || count == usize::from(fields.is_single());
        asked && in_order && reached == self.bytes.len()
    }
}

impl Record<()> {
    fn is_timer(&self) -> bool {
        (kind::DO_SHUFFLE..=kind::RETRY_JOIN).contains(&self.kind)
    }

    fn is_message(&self, message: u8) -> bool {
        self.kind == kind::MESSAGE && self.message == message
    }

    /// Kinds 7 and 11, whose one node is data without an id.
    fn is_data(&self) -> bool {
        matches!(self.kind, kind::UPDATE_PEER_DATA | kind::PEER_DATA)
    }

    fn is_shuffle(&self) -> bool {
        self.is_message(message::SHUFFLE) || self.is_message(message::SHUFFLE_REPLY)
    }

    /// Whether a node of the record has no id.
    fn is_nameless(&self) -> bool {
        self.is_data() || self.is_message(message::JOIN) || self.is_message(message::NEIGHBOR)
    }

    fn is_single(&self) -> bool {
        self.is_nameless() || self.is_message(message::FORWARD_JOIN)
    }

    /// Whether every field that is not named for the kind is 0, and every named one in range.
    pub fn fit(&self) -> bool {
        let named_peer = !matches!(
            self.kind,
            kind::DO_SHUFFLE | kind::DO_MAINTENANCE | kind::UPDATE_PEER_DATA | kind::QUIT
        );
        let named_second = self.is_message(message::SHUFFLE) || self.is_timer();
        let named_ttl = self.is_message(message::FORWARD_JOIN) || self.is_message(message::SHUFFLE);
        let named_number = matches!(self.kind, kind::PENDING_NEIGHBOR_REQUEST | kind::RETRY_JOIN);
        let most_message = if self.kind == kind::MESSAGE {
            message::DISCONNECT
        } else {
            0
        };
        self.kind <= kind::PIN
            && self.message <= most_message
            && self.flags <= self.most_flags()
            && (named_peer || self.peer == 0)
            && (named_second || self.second == 0)
            && (named_ttl || self.ttl == 0)
            && (named_number || self.number == 0)
    }

    fn most_flags(&self) -> u8 {
        match () {
            () if self.is_message(message::NEIGHBOR) => 1,
            () if self.is_message(message::DISCONNECT) => 3,
            () => 0,
        }
    }
}

/// The fields of a record's header.
pub fn header_of(bytes: &[u8]) -> Record<()> {
    Record {
        kind: bytes[0],
        message: bytes[1],
        flags: bytes[2],
        peer: peer_of(bytes),
        second: u64_at(bytes, 12),
        ttl: u16_at(bytes, 20),
        number: u64_at(bytes, NUMBER),
        nodes: (),
    }
}

fn u16_at(bytes: &[u8], place: usize) -> u16 {
    u16::from_le_bytes([bytes[place], bytes[place + 1]])
}

fn u64_at(bytes: &[u8], place: usize) -> u64 {
    u64::from_le_bytes(bytes[place..place + 8].try_into().expect("eight bytes"))
}

/// The peer of a record's header.
pub fn peer_of(record: &[u8]) -> Peer {
    u64_at(record, PEER)
}

/// The number of a record's header.
pub fn number_of(record: &[u8]) -> u64 {
    u64_at(record, NUMBER)
}

/// The whole length that a record's header tells.
pub fn length_of(record: &[u8]) -> usize {
    usize::from(u16_at(record, LENGTH))
}

/// The records that stand one after another in `bytes`, each cut by its whole length.
///
/// Stops at the first place where no header fits or the length is under a header's or too long.
pub fn cut(bytes: &[u8]) -> Vec<&[u8]> {
    let mut rest = bytes;
    let mut records = Vec::new();
    while rest.len() >= HEADER {
        let len = length_of(rest);
        if len < HEADER || len > rest.len() {
            break;
        }
        let (record, after) = rest.split_at(len);
        records.push(record);
        rest = after;
    }
    records
}
