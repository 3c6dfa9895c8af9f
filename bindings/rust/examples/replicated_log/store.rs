//! The store under test: a log that a majority of five nodes keeps, after Raft.
//!
//! A node whose disk was emptied has forgotten its vote too. It neither votes nor counts until it
//! has rejoined: until the entry `Rejoin` of its new disk is committed, and synced on that disk.

use crate::Bug;

pub const NODES: usize = 5;
pub const MAJORITY: usize = 3;
/// How many entries a message carries at most.
const BATCH: usize = 64;
/// How far a leader goes back at a mismatch.
const BACK: usize = 16;

#[derive(Clone, Copy, PartialEq, Eq)]
pub enum Data {
    /// What a new leader writes first, since it may count copies of its own term only.
    Nothing,
    Write(u64),
    Rejoin {
        node: usize,
        disk: u64,
    },
}

#[derive(Clone, Copy)]
pub struct Entry {
    pub term: u64,
    pub data: Data,
}

/// What survives a reboot, except for the entries behind `synced`. Term and vote are synced at
/// once.
pub struct Disk {
    /// Greater than that of the node's disks before.
    pub id: u64,
    /// Whether its node votes and counts.
    pub is_voter: bool,
    pub term: u64,
    pub voted_for: Option<usize>,
    pub log: Vec<Entry>,
    pub synced: usize,
}

impl Disk {
    fn empty(id: u64, is_voter: bool) -> Disk {
        Disk {
            id,
            is_voter,
            term: 0,
            voted_for: None,
            log: Vec::new(),
            synced: 0,
        }
    }

    /// The term of the last entry and how many there are: the greater log is the newer one.
    fn last(&self) -> (u64, usize) {
        (self.term_before(self.log.len()), self.log.len())
    }

    /// The term of the entry before a place, 0 where there is none.
    fn term_before(&self, at: usize) -> u64 {
        at.checked_sub(1).map_or(0, |at| self.log[at].term)
    }

    /// The latest disk of each node that the log tells of.
    fn rejoined(&self) -> [u64; NODES] {
        let mut disks = [0; NODES];
        for entry in &self.log {
            if let Data::Rejoin { node, disk } = entry.data {
                disks[node] = disk;
            }
        }
        disks
    }
}

pub enum Message {
    RequestVote {
        term: u64,
        last: (u64, usize),
    },
    Vote {
        term: u64,
        ballot: Ballot,
    },
    Append {
        term: u64,
        before: (u64, usize),
        entries: Vec<Entry>,
        commit: usize,
    },
    Synced {
        term: u64,
        disk: u64,
        is_voter: bool,
        upto: usize,
    },
    Mismatch {
        term: u64,
        from: usize,
    },
}

/// A vote, with the disk of the voter and the disks that its log tells of.
#[derive(Clone, Copy)]
pub struct Ballot {
    disk: u64,
    rejoined: [u64; NODES],
}

#[derive(Clone, Copy, PartialEq, Eq)]
pub enum Role {
    Follower,
    Candidate,
    Leader,
}

/// What a node wants of the world.
pub enum Effect {
    Send { to: usize, message: Message },
    Sync,
    Acknowledge { write: u64 },
    Rejoined,
    Elected,
}

pub struct Node {
    pub me: usize,
    pub is_up: bool,
    pub is_gone: bool,
    /// How often it ended. What was scheduled in an earlier life is void.
    pub life: u32,
    pub disk: Disk,
    pub role: Role,
    pub commit: usize,
    /// When it asks for votes unless it hears of a leader; `None` where that has to be drawn.
    pub election_at: Option<u64>,
    pub is_syncing: bool,
    /// How often the log was cut. A sync that began before is void.
    pub cuts: u32,
    leader: Option<usize>,
    ballots: [Option<Ballot>; NODES],
    next: [usize; NODES],
    matched: [usize; NODES],
    /// How much of the log is known to be the leader's.
    verified: usize,
    effects: Vec<Effect>,
    bug: Bug,
}

impl Node {
    pub fn new(me: usize, bug: Bug) -> Node {
        Node {
            me,
            is_up: false,
            is_gone: false,
            life: 0,
            disk: Disk::empty(0, true),
            role: Role::Follower,
            commit: 0,
            election_at: None,
            is_syncing: false,
            cuts: 0,
            leader: None,
            ballots: [None; NODES],
            next: [0; NODES],
            matched: [0; NODES],
            verified: 0,
            effects: Vec::new(),
            bug,
        }
    }

    pub fn take_effects(&mut self) -> Vec<Effect> {
        std::mem::take(&mut self.effects)
    }

    /// Ends the process: what isn't on its disk is lost.
    pub fn end(&mut self) {
        self.is_up = false;
        self.life += 1;
        self.role = Role::Follower;
        self.commit = 0;
        self.is_syncing = false;
        self.leader = None;
        self.ballots = [None; NODES];
        self.matched = [0; NODES];
        self.verified = 0;
    }

    /// All that was written was synced.
    pub fn keep_all(&mut self) {
        self.disk.synced = self.disk.log.len();
    }

    /// Keeps the unsynced entry i where bit i is 1. What stands behind a hole isn't read again.
    pub fn tear(&mut self, bits: u64) {
        let unsynced = self.disk.log.len() - self.disk.synced;
        let is_kept = |at: &usize| *at < 64 && bits >> at & 1 == 1;
        let kept = (0..unsynced).take_while(is_kept).count();
        self.disk.log.truncate(self.disk.synced + kept);
        self.keep_all();
    }

    /// Empties the disk.
    pub fn empty(&mut self, id: u64) {
        self.disk = Disk::empty(id, self.bug == Bug::VoteBlank);
    }

    /// Enters a term that is newer than its own.
    fn see_term(&mut self, term: u64) {
        if term > self.disk.term {
            self.disk.term = term;
            self.disk.voted_for = None;
            self.role = Role::Follower;
            self.leader = None;
            self.verified = 0;
        }
    }

    /// Asks for votes: it heard of no leader for too long.
    pub fn campaign(&mut self) {
        if !self.disk.is_voter {
            return;
        }
        self.see_term(self.disk.term + 1);
        self.disk.voted_for = Some(self.me);
        self.role = Role::Candidate;
        self.ballots = [None; NODES];
        self.ballots[self.me] = Some(self.ballot());
        let (term, last) = (self.disk.term, self.disk.last());
        for peer in self.peers() {
            self.send(peer, Message::RequestVote { term, last });
        }
    }

    /// A client's write, or one of the leader's own.
    pub fn write(&mut self, data: Data) {
        let term = self.disk.term;
        self.disk.log.push(Entry { term, data });
        self.effects.push(Effect::Sync);
        self.replicate();
    }

    /// Sends each follower what it lacks, or nothing new.
    pub fn replicate(&mut self) {
        for peer in self.peers() {
            self.send_entries(peer);
        }
    }

    /// The log is synced as far as this.
    pub fn synced(&mut self, upto: usize) {
        self.is_syncing = false;
        self.disk.synced = self.disk.synced.max(upto);
        match self.role {
            Role::Leader => self.advance_commit(),
            _ => self.report_synced(),
        }
        self.rejoin();
        self.sync_rest();
    }

    pub fn receive(&mut self, from: usize, message: Message) {
        match message {
            Message::RequestVote { term, last } => self.on_request_vote(from, term, last),
            Message::Vote { term, ballot } => self.on_vote(from, term, ballot),
            Message::Append {
                term,
                before,
                entries,
                commit,
            } => self.on_append(from, term, before, entries, commit),
            Message::Synced {
                term,
                disk,
                is_voter,
                upto,
            } => match is_voter {
                true => self.on_synced(from, term, upto),
                false => self.on_synced_blank(from, term, disk, upto),
            },
            Message::Mismatch { term, from: next } => {
                if self.leads(term) {
                    self.next[from] = next;
                    self.send_entries(from);
                }
            }
        }
    }

    fn on_request_vote(&mut self, from: usize, term: u64, last: (u64, usize)) {
        if !self.disk.is_voter {
            return;
        }
        self.see_term(term);
        let is_free = self.disk.voted_for.map_or(true, |to| to == from);
        let is_newest = last >= self.disk.last();
        if term == self.disk.term && is_free && is_newest && self.role == Role::Follower {
            self.disk.voted_for = Some(from);
            self.election_at = None;
            let ballot = self.ballot();
            self.send(from, Message::Vote { term, ballot });
        }
    }

    fn on_vote(&mut self, from: usize, term: u64, ballot: Ballot) {
        if self.role != Role::Candidate || term != self.disk.term {
            return;
        }
        self.ballots[from] = Some(ballot);
        let ballots = self.ballots;
        // What a disk voted that another voter knows to be lost doesn't count.
        let is_stale = |node: usize, disk: u64| {
            let mut told = ballots.iter().flatten();
            told.any(|ballot| ballot.rejoined[node] > disk)
        };
        let counts = |node: &usize| matches!(ballots[*node], Some(it) if !is_stale(*node, it.disk));
        if (0..NODES).filter(counts).count() >= MAJORITY {
            self.lead();
        }
    }

    fn lead(&mut self) {
        let length = self.disk.log.len();
        self.role = Role::Leader;
        self.leader = Some(self.me);
        self.verified = length;
        self.next = [length; NODES];
        self.matched = [0; NODES];
        self.effects.push(Effect::Elected);
        self.write(Data::Nothing);
    }

    fn on_append(
        &mut self,
        from: usize,
        term: u64,
        (before, at): (u64, usize),
        entries: Vec<Entry>,
        commit: usize,
    ) {
        self.see_term(term);
        if term < self.disk.term || self.role == Role::Leader {
            return;
        }
        self.role = Role::Follower;
        self.leader = Some(from);
        self.election_at = None;
        let length = self.disk.log.len();
        if at > length || self.disk.term_before(at) != before {
            let from_there = length.min(at.saturating_sub(BACK));
            let mismatch = Message::Mismatch {
                term,
                from: from_there,
            };
            return self.send(from, mismatch);
        }
        let end = at + entries.len();
        self.append(at, entries);
        self.verified = self.verified.max(end);
        self.commit = self.commit.max(commit.min(self.verified));
        self.sync_rest();
        self.report_synced();
        self.rejoin();
    }

    /// Puts entries at a place of the log. What the log has there by another term is cut.
    fn append(&mut self, at: usize, entries: Vec<Entry>) {
        for (at, entry) in (at..).zip(entries) {
            match self.disk.log.get(at) {
                Some(old) if old.term == entry.term => continue,
                Some(_) => self.cut(at),
                None => {}
            }
            self.disk.log.push(entry);
        }
    }

    fn cut(&mut self, at: usize) {
        self.disk.log.truncate(at);
        self.disk.synced = self.disk.synced.min(at);
        self.cuts += 1;
        self.is_syncing = false;
    }

    fn on_synced(&mut self, from: usize, term: u64, upto: usize) {
        if self.leads(term) {
            self.matched[from] = self.matched[from].max(upto);
            self.advance_commit();
        } else {
            self.see_term(term);
        }
    }

    /// A node without a vote has synced so much. Once that is all that is committed, its disk
    /// rejoins.
    fn on_synced_blank(&mut self, from: usize, term: u64, disk: u64, upto: usize) {
        if !self.leads(term) {
            return self.see_term(term);
        }
        self.matched[from] = 0;
        self.next[from] = self.next[from].min(upto + BATCH);
        let rejoin = Data::Rejoin { node: from, disk };
        let is_told = self.disk.log.iter().any(|entry| entry.data == rejoin);
        if upto >= self.commit && !is_told {
            self.write(rejoin);
        }
    }

    fn leads(&self, term: u64) -> bool {
        self.role == Role::Leader && term == self.disk.term
    }

    /// Commits what a majority has synced, and acknowledges its writes.
    fn advance_commit(&mut self) {
        self.matched[self.me] = self.safe_length();
        let mut matched = self.matched;
        matched.sort_unstable();
        let upto = matched[NODES - MAJORITY];
        if upto <= self.commit || self.disk.term_before(upto) != self.disk.term {
            return;
        }
        for entry in &self.disk.log[self.commit..upto] {
            if let Data::Write(write) = entry.data {
                self.effects.push(Effect::Acknowledge { write });
            }
        }
        self.commit = upto;
    }

    /// Tells the leader how much of its log is synced here.
    fn report_synced(&mut self) {
        let leader = match self.leader {
            Some(leader) if leader != self.me => leader,
            _ => return,
        };
        let report = Message::Synced {
            term: self.disk.term,
            disk: self.disk.id,
            is_voter: self.disk.is_voter,
            upto: self.safe_length().min(self.verified),
        };
        self.send(leader, report);
    }

    /// How much of the log this node may vouch for.
    fn safe_length(&self) -> usize {
        match self.bug {
            Bug::AckUnsynced => self.disk.log.len(),
            _ => self.disk.synced,
        }
    }

    /// Votes again, where the entry of its disk is committed and synced.
    fn rejoin(&mut self) {
        if self.disk.is_voter {
            return;
        }
        let sure = self.commit.min(self.disk.synced).min(self.verified);
        let (node, disk) = (self.me, self.disk.id);
        let rejoin = Data::Rejoin { node, disk };
        if self.disk.log[..sure].iter().any(|it| it.data == rejoin) {
            self.disk.is_voter = true;
            // It forgot for whom an earlier disk voted in this term.
            self.disk.voted_for = self.leader;
            self.effects.push(Effect::Rejoined);
            self.report_synced();
        }
    }

    fn sync_rest(&mut self) {
        if self.disk.synced < self.disk.log.len() {
            self.effects.push(Effect::Sync);
        }
    }

    fn ballot(&self) -> Ballot {
        Ballot {
            disk: self.disk.id,
            rejoined: self.disk.rejoined(),
        }
    }

    fn peers(&self) -> impl Iterator<Item = usize> {
        let me = self.me;
        (0..NODES).filter(move |peer| *peer != me)
    }

    fn send(&mut self, to: usize, message: Message) {
        self.effects.push(Effect::Send { to, message });
    }

    fn send_entries(&mut self, peer: usize) {
        let length = self.disk.log.len();
        let from = self.next[peer].min(length);
        let to = length.min(from + BATCH);
        // It is taken to arrive; a `Mismatch` takes that back.
        self.next[peer] = to;
        let append = Message::Append {
            term: self.disk.term,
            before: (self.disk.term_before(from), from),
            entries: self.disk.log[from..to].to_vec(),
            commit: self.commit,
        };
        self.send(peer, append);
    }
}
