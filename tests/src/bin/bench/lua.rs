//! Lua 5.4 by its C interface, where the build found it (`cfg(lua)`, build.rs).

#[cfg(not(lua))]
pub use absent::Program;
#[cfg(lua)]
pub use linked::Program;

#[cfg(not(lua))]
mod absent {
    /// There is none.
    pub enum Program {}

    impl Program {
        pub fn new(_text: &str) -> Option<Program> {
            None
        }

        pub fn run(&mut self) -> u64 {
            match *self {}
        }

        pub fn events(&self) -> &[u64] {
            match *self {}
        }
    }
}

#[cfg(lua)]
mod linked {
    use std::ffi::{c_char, c_int, c_void, CStr, CString};
    use std::ptr::null_mut;

    #[repr(C)]
    struct State {
        _opaque: [u8; 0],
    }

    extern "C" {
        fn luaL_newstate() -> *mut State;
        fn luaL_loadstring(state: *mut State, text: *const c_char) -> c_int;
        fn lua_close(state: *mut State);
        fn lua_pushvalue(state: *mut State, index: c_int);
        fn lua_settop(state: *mut State, index: c_int);
        fn lua_tointegerx(state: *mut State, index: c_int, is_number: *mut c_int) -> i64;
        fn lua_tolstring(state: *mut State, index: c_int, length: *mut usize) -> *const c_char;
        fn lua_touserdata(state: *mut State, index: c_int) -> *mut c_void;
        fn lua_pushlightuserdata(state: *mut State, value: *mut c_void);
        fn lua_pushcclosure(state: *mut State, function: extern "C" fn(*mut State) -> c_int, values: c_int);
        fn lua_setglobal(state: *mut State, name: *const c_char);
        fn lua_pcallk(state: *mut State, arguments: c_int, results: c_int, handler: c_int, context: isize, continuation: *mut c_void) -> c_int;
    }

    /// Where `set` writes its events, from the first on.
    struct Events {
        room: [u64; 512],
        count: usize,
    }

    /// The place of a closure's first value.
    const FIRST_VALUE: c_int = -1_001_001;

    /// set(channel, level): no more than a store of 8 bytes.
    extern "C" fn set(state: *mut State) -> c_int {
        // SAFETY: the closure's value is the events of the program that calls it, which nobody else is at.
        unsafe {
            let events = &mut *(lua_touserdata(state, FIRST_VALUE) as *mut Events);
            let (channel, level) = (lua_tointegerx(state, 1, null_mut()), lua_tointegerx(state, 2, null_mut()));
            events.room[events.count] = 4 + ((channel as u64) << 24) + ((level as u64) << 40);
            events.count += 1;
        }
        0
    }

    /// A program's text, compiled once: a function at the bottom of a Lua stack of its own. Its global `set` gives an event; one run has room for 512.
    pub struct Program {
        state: *mut State,
        events: *mut Events,
    }

    impl Program {
        pub fn new(text: &str) -> Option<Program> {
            let events = Box::into_raw(Box::new(Events { room: [0; 512], count: 0 }));
            // SAFETY: a new state is no other's.
            let program = Program { state: unsafe { luaL_newstate() }, events };
            assert!(!program.state.is_null());
            // SAFETY: the state is open; the events become the closure's value, and the closure the global.
            unsafe {
                lua_pushlightuserdata(program.state, events as *mut c_void);
                lua_pushcclosure(program.state, set, 1);
                lua_setglobal(program.state, c"set".as_ptr());
            }
            let text = CString::new(text).expect("a program has no zero");
            // SAFETY: the state is open and the text ends in zero.
            let status = unsafe { luaL_loadstring(program.state, text.as_ptr()) };
            program.expect_fine(status);
            Some(program)
        }

        /// What the program returns.
        pub fn run(&mut self) -> u64 {
            // SAFETY: the events are the program's; the function is at 1; it is copied and called under protection with no arguments, and gives one value.
            let status = unsafe {
                (*self.events).count = 0;
                lua_pushvalue(self.state, 1);
                lua_pcallk(self.state, 0, 1, 0, 0, null_mut())
            };
            self.expect_fine(status);
            // SAFETY: the value is on top, and is taken off.
            unsafe {
                let value = lua_tointegerx(self.state, -1, null_mut());
                lua_settop(self.state, 1);
                value as u64
            }
        }

        /// The events of the last run.
        pub fn events(&self) -> &[u64] {
            // SAFETY: the events are the program's, which does not run now.
            let events = unsafe { &*self.events };
            &events.room[..events.count]
        }

        fn expect_fine(&self, status: c_int) {
            if status != 0 {
                // SAFETY: what went wrong is on top, as a string.
                panic!("Lua: {:?}", unsafe { CStr::from_ptr(lua_tolstring(self.state, -1, null_mut())) });
            }
        }
    }

    impl Drop for Program {
        fn drop(&mut self) {
            // SAFETY: the state is open, the events are a box's, and neither is used again.
            unsafe {
                lua_close(self.state);
                drop(Box::from_raw(self.events));
            }
        }
    }
}
