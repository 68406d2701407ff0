//! The data model: identifiers, the cluster's metadata, the contexts.

use core::cell::Cell;
use core::fmt;
use core::marker::PhantomData;
use core::ops::BitAnd;

use super::persist::KvBlobStoreAccess;

pub mod clusters {
    pub use crate::standins::decl;

    pub mod app {
        pub mod deferred_persist {
            pub use crate::standins::utils::DeferredPersist;
        }
    }
}

pub type EndptId = u16;
pub type ClusterId = u32;
pub type AttrId = u32;
pub type EventId = u32;
pub type CmdId = u32;

/// What a configuration serves: bit n of a mask stands for code n.
#[derive(Clone, Copy, Default)]
pub struct Served {
    pub revision: u16,
    pub features: u32,
    pub attributes: u64,
    pub events: u64,
    pub commands: u64,
}

thread_local! {
    static CURRENT: Cell<Served> = const {
        Cell::new(Served { revision: 0, features: 0, attributes: 0, events: 0, commands: 0 })
    };
}

/// Sets what every `Cluster::CURRENT` reads.
pub fn serve(served: Served) {
    CURRENT.set(served);
}

/// `ThermostatHooks::CLUSTER` must be a constant, so what is served by a line of text is looked up when it is asked for.
#[derive(Clone, Copy)]
enum Metadata {
    Current,
    Fixed(Served),
}

impl Metadata {
    fn get(self) -> Served {
        match self {
            Self::Current => CURRENT.get(),
            Self::Fixed(served) => served,
        }
    }
}

#[derive(Clone, Copy)]
pub struct Revision(Metadata);

impl PartialEq<u16> for Revision {
    fn eq(&self, other: &u16) -> bool {
        self.0.get().revision == *other
    }
}

impl fmt::Display for Revision {
    fn fmt(&self, f: &mut fmt::Formatter<'_>) -> fmt::Result {
        self.0.get().revision.fmt(f)
    }
}

#[derive(Clone, Copy)]
pub struct FeatureMap(Metadata);

impl BitAnd<u32> for FeatureMap {
    type Output = u32;

    fn bitand(self, features: u32) -> u32 {
        self.0.get().features & features
    }
}

#[derive(Clone, Copy)]
pub struct Cluster<'a> {
    pub id: ClusterId,
    pub revision: Revision,
    pub feature_map: FeatureMap,
    served: Metadata,
    lifetime: PhantomData<&'a ()>,
}

impl Cluster<'static> {
    pub const CURRENT: Self = Self::new(Metadata::Current);

    pub const fn fixed(served: Served) -> Self {
        Self::new(Metadata::Fixed(served))
    }

    const fn new(served: Metadata) -> Self {
        Self { id: 0x0201, revision: Revision(served), feature_map: FeatureMap(served), served, lifetime: PhantomData }
    }

    // These five, and `with!`, only let the sample device of thermostat.rs be compiled; it never runs.
    pub const fn with_revision(self, _revision: u16) -> Self {
        self
    }

    pub const fn with_features(self, _features: u32) -> Self {
        self
    }

    pub const fn with_attrs(self, _attributes: ()) -> Self {
        self
    }

    pub const fn with_cmds(self, _commands: ()) -> Self {
        self
    }

    pub const fn with_events(self, _events: ()) -> Self {
        self
    }
}

impl Cluster<'_> {
    pub fn attribute(&self, id: AttrId) -> Option<AttrId> {
        listed(self.served.get().attributes, id)
    }

    pub fn event(&self, id: EventId) -> Option<EventId> {
        listed(self.served.get().events, id)
    }

    pub fn command(&self, id: CmdId) -> Option<CmdId> {
        listed(self.served.get().commands, id)
    }

    pub fn events(&self) -> impl Iterator<Item = EventId> {
        let mut rest = self.served.get().events;
        core::iter::from_fn(move || {
            (rest != 0).then(|| {
                let id = rest.trailing_zeros();
                rest &= rest - 1;
                id
            })
        })
    }
}

macro_rules! with {
    ($($listed:tt)*) => {
        ()
    };
}
pub(crate) use with;

fn listed(mask: u64, id: u32) -> Option<u32> {
    (id < 64 && mask >> id & 1 == 1).then_some(id)
}

pub struct Dataver;

impl Dataver {
    pub fn get(&self) -> u32 {
        0
    }

    pub fn changed(&self) {}
}

pub enum LifecycleOp {
    Startup,
    FactoryReset,
    FabricRemoval { fabric: u8 },
    FailSafeCommit,
    FailSafeExpiry,
}

pub trait AttrChangeNotifier {
    fn notify_attr_changed(&self, endpoint: EndptId, cluster: ClusterId, attr: AttrId);

    fn notify_cluster_changed(&self, endpoint: EndptId, cluster: ClusterId);
}

/// Nobody is told.
impl AttrChangeNotifier for () {
    fn notify_attr_changed(&self, _endpoint: EndptId, _cluster: ClusterId, _attr: AttrId) {}

    fn notify_cluster_changed(&self, _endpoint: EndptId, _cluster: ClusterId) {}
}

/// An event as it leaves: its code and the values that the console prints.
#[derive(Clone, Copy, Default)]
pub struct Event {
    pub id: EventId,
    pub values: [Option<i32>; 3],
    pub count: usize,
}

pub trait EventEmitter {
    fn emit(&self, event: Event);
}

pub struct UtcTime(pub Option<u32>);

impl UtcTime {
    pub fn reliable_secs(&self) -> Option<u64> {
        self.0.map(u64::from)
    }
}

pub trait HandlerContext: AttrChangeNotifier + EventEmitter {
    fn kv(&self) -> impl KvBlobStoreAccess;

    fn utc_time(&self) -> UtcTime;
}

pub trait ReadContext: HandlerContext {}

pub trait WriteContext: HandlerContext {}

pub trait InvokeContext: HandlerContext {}

impl<T: AttrChangeNotifier> AttrChangeNotifier for &T {
    fn notify_attr_changed(&self, endpoint: EndptId, cluster: ClusterId, attr: AttrId) {
        (*self).notify_attr_changed(endpoint, cluster, attr)
    }

    fn notify_cluster_changed(&self, endpoint: EndptId, cluster: ClusterId) {
        (*self).notify_cluster_changed(endpoint, cluster)
    }
}

impl<T: EventEmitter> EventEmitter for &T {
    fn emit(&self, event: Event) {
        (*self).emit(event)
    }
}

impl<T: HandlerContext> HandlerContext for &T {
    fn kv(&self) -> impl KvBlobStoreAccess {
        (*self).kv()
    }

    fn utc_time(&self) -> UtcTime {
        (*self).utc_time()
    }
}

impl<T: ReadContext> ReadContext for &T {}

impl<T: WriteContext> WriteContext for &T {}

impl<T: InvokeContext> InvokeContext for &T {}
