//! What surrounds the handler in one call: the readings it is given, and what it does with order, notices and events.

use core::cell::Cell;

use crate::record::{Order, Readings};
use crate::standins::dm::{
    AttrChangeNotifier, AttrId, ClusterId, EndptId, Event, EventEmitter, HandlerContext, InvokeContext, ReadContext,
    UtcTime, WriteContext,
};
use crate::standins::persist::KvBlobStoreAccess;
use crate::standins::utils::timers::Instant;

/// The notice that stands for the whole cluster.
const WHOLE_CLUSTER: u32 = 0xffff;

/// A list that is written through a shared reference, in a fixed place.
pub struct Log<T, const N: usize> {
    items: [Cell<T>; N],
    count: Cell<usize>,
}

impl<T: Copy + Default, const N: usize> Log<T, N> {
    fn new() -> Self {
        Self { items: core::array::from_fn(|_| Cell::default()), count: Cell::new(0) }
    }

    fn push(&self, item: T) {
        let count = self.count.get();
        self.items[count].set(item);
        self.count.set(count + 1);
    }

    pub fn len(&self) -> usize {
        self.count.get()
    }

    pub fn iter(&self) -> impl Iterator<Item = T> + '_ {
        self.items[..self.len()].iter().map(Cell::get)
    }
}

pub struct World {
    pub readings: Readings,
    pub order: Cell<Option<Order>>,
    pub notices: Log<u32, 16>,
    pub events: Log<Event, 6>,
}

impl World {
    pub fn new(readings: Readings) -> Self {
        Instant::set_now(readings.clock);
        Self { readings, order: Cell::new(None), notices: Log::new(), events: Log::new() }
    }

    /// Ready for the next call with the same readings.
    pub fn clear(&self) {
        self.order.set(None);
        self.notices.count.set(0);
        self.events.count.set(0);
    }
}

impl AttrChangeNotifier for World {
    fn notify_attr_changed(&self, _endpoint: EndptId, _cluster: ClusterId, attr: AttrId) {
        self.notices.push(attr);
    }

    fn notify_cluster_changed(&self, _endpoint: EndptId, _cluster: ClusterId) {
        self.notices.push(WHOLE_CLUSTER);
    }
}

impl EventEmitter for World {
    fn emit(&self, event: Event) {
        self.events.push(event);
    }
}

impl HandlerContext for World {
    fn kv(&self) -> impl KvBlobStoreAccess {}

    fn utc_time(&self) -> UtcTime {
        UtcTime(self.readings.node_utc)
    }
}

impl ReadContext for World {}

impl WriteContext for World {}

impl InvokeContext for World {}
