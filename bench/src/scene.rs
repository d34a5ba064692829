//! A scene is what is measured: a volume, and a call on it.

use model::volume::MAX_LISTING;

use crate::call::{Call, Function, Ready};
use crate::reply::Reply;
use crate::side::{Side, BOTH};
use crate::stage::Stage;
use crate::{paint, steps};

pub struct Scene {
    pub name: &'static str,
    pub before: Vec<u8>,
    pub call: Call,
}

impl Scene {
    pub fn new(name: &'static str, stage: &Stage, call: Call) -> Scene {
        Scene { name, before: stage.volume.clone(), call }
    }

    /// A call with the stage's session whose other arguments are bytes.
    pub fn on_stage(name: &'static str, stage: &Stage, function: Function, bytes: &[u8]) -> Scene {
        Scene::new(name, stage, stage.call(function, bytes))
    }

    /// The room for a listing.
    pub fn text() -> Vec<u8> {
        vec![0; MAX_LISTING]
    }

    pub fn ready(&self, side: Side, volume: &mut [u8], text: &mut [u8]) -> Ready {
        self.call.ready(side.entry(self.call.function), volume, text)
    }

    /// The reply. Both sides must give it, and leave the same bytes.
    pub fn reply(&self) -> Reply {
        let [library, rust] = BOTH.map(|side| {
            let (mut volume, mut text) = (self.before.clone(), Scene::text());
            let reply = side.make(&self.call, &mut volume, &mut text);
            (reply, volume, text)
        });
        assert!(library == rust, "{}: the sides differ; replies {:?} and {:?}", self.name, library.0, rust.0);
        library.0
    }

    /// The instructions of the call on both sides.
    pub fn instructions(&self) -> [u64; 2] {
        let expected = self.reply();
        BOTH.map(|side| {
            let (mut volume, mut text) = (self.before.clone(), Scene::text());
            let ready = self.ready(side, &mut volume, &mut text);
            // SAFETY: the arrays stand here, and nothing else uses them.
            let (reply, count) = unsafe { steps::count(&ready) };
            assert!(reply == expected, "{}: another reply while counting", self.name);
            count
        })
    }

    /// The bytes of stack of the call on both sides.
    pub fn stacks(&self) -> [usize; 2] {
        let expected = self.reply();
        BOTH.map(|side| {
            let (mut volume, mut text) = (self.before.clone(), Scene::text());
            let start = || {
                volume.copy_from_slice(&self.before);
                self.ready(side, &mut volume, &mut text)
            };
            paint::peak(start, |reply| assert!(reply == expected, "{}: another reply on paint", self.name))
        })
    }
}
