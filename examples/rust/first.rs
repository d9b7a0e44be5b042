//! A platform creates an instance, and deletes it after a 500: examples/c/first.c in Rust. It prints the same.
//!
//! The module `osb` keeps what the header asks of C, for every caller in safe Rust: each pointer comes from a
//! reference or a slice, and each length is that slice's. Declare further calls of include/osb.h in the same way.

mod osb {
    #[repr(C)]
    #[derive(Clone, Copy, Default)]
    pub struct Id {
        pub high: u64,
        pub low: u64,
    }

    #[repr(C)]
    #[derive(Clone, Copy, Default)]
    pub struct Request {
        pub kind: u8,
        pub accepts_incomplete: bool,
        pub id: Id,
        pub service: Id,
        pub plan: Id,
    }

    #[repr(C)]
    #[derive(Clone, Copy, Default)]
    pub struct Answer {
        pub status: u16,
        pub body: u8,
    }

    /// What a platform keeps of an instance.
    #[repr(C)]
    #[derive(Clone, Copy, Default)]
    pub struct Record {
        pub service: Id,
        pub plan: Id,
        pub attempt: u64,
        pub state: u8,
        pub out: u8,
    }

    const DONE: u32 = 0;
    const TOO_SMALL: u32 = 17;

    /// The status of a call that wasn't done.
    #[derive(Debug)]
    pub struct Status(#[allow(dead_code)] pub u32);

    #[link(name = "osb")]
    extern "C" {
        fn osb_record_create(
            id: Id,
            service: Id,
            plan: Id,
            accepts_incomplete: bool,
            record: *mut Record,
            request: *mut Request,
        );
        fn osb_record_send(record: *mut Record, id: Id, request: *mut Request) -> u32;
        fn osb_record_answer(record: *mut Record, attempt: u64, answer: Answer) -> u32;
        fn osb_record_timeout(record: *mut Record, attempt: u64) -> u32;
        fn osb_record_to_text(record: *const Record, buffer: *mut u8, bytes: usize, needed: *mut usize) -> u32;
        fn osb_write_method(kind: u8, buffer: *mut u8, bytes: usize, needed: *mut usize) -> u32;
        fn osb_id_to_text(id: Id, text: *mut u8);
        fn osb_write_named_target(
            prefix: *const u8,
            prefix_length: usize,
            request: *const Request,
            instance: *const u8,
            instance_length: usize,
            service: *const u8,
            service_length: usize,
            plan: *const u8,
            plan_length: usize,
            has_operation: bool,
            operation: *const u8,
            operation_length: usize,
            buffer: *mut u8,
            bytes: usize,
            needed: *mut usize,
        ) -> u32;
        fn osb_read_answer(kind: u8, status: u16, body: *const u8, length: usize, answer: *mut Answer) -> u32;
    }

    fn done<T>(status: u32, value: T) -> Result<T, Status> {
        if status == DONE {
            Ok(value)
        } else {
            Err(Status(status))
        }
    }

    /// The text that a call writes. It is called again if the buffer was too short.
    fn written(call: impl Fn(*mut u8, usize, *mut usize) -> u32) -> Result<String, Status> {
        let (mut buffer, mut needed) = (Vec::new(), 0);
        loop {
            let status = call(buffer.as_mut_ptr(), buffer.len(), &mut needed);
            if status != TOO_SMALL {
                buffer.truncate(needed);
                return done(status, String::from_utf8_lossy(&buffer).into_owned());
            }
            buffer.resize(needed, 0);
        }
    }

    impl Record {
        pub fn create(id: Id, service: Id, plan: Id) -> (Record, Request) {
            let (mut record, mut request) = (Record::default(), Request::default());
            unsafe { osb_record_create(id, service, plan, true, &mut record, &mut request) };
            (record, request)
        }

        pub fn send(&mut self, id: Id) -> Result<Request, Status> {
            let mut request = Request::default();
            let status = unsafe { osb_record_send(self, id, &mut request) };
            done(status, request)
        }

        pub fn answer(&mut self, attempt: u64, answer: Answer) -> Result<(), Status> {
            done(unsafe { osb_record_answer(self, attempt, answer) }, ())
        }

        pub fn time_out(&mut self, attempt: u64) -> Result<(), Status> {
            done(unsafe { osb_record_timeout(self, attempt) }, ())
        }

        pub fn to_text(&self) -> Result<String, Status> {
            written(|buffer, bytes, needed| unsafe { osb_record_to_text(self, buffer, bytes, needed) })
        }
    }

    pub fn write_method(kind: u8) -> Result<String, Status> {
        written(|buffer, bytes, needed| unsafe { osb_write_method(kind, buffer, bytes, needed) })
    }

    /// The text of an id that is a GUID in lower case.
    fn guid(id: Id) -> [u8; 36] {
        let mut text = [0; 36];
        unsafe { osb_id_to_text(id, text.as_mut_ptr()) };
        text
    }

    pub fn write_target(request: &Request) -> Result<String, Status> {
        let none = b"".as_ptr();
        let (id, service, plan) = (guid(request.id), guid(request.service), guid(request.plan));
        let (id, service, plan) = (id.as_ptr(), service.as_ptr(), plan.as_ptr());
        written(|buffer, bytes, needed| unsafe {
            osb_write_named_target(
                none, 0, request, id, 36, service, 36, plan, 36, false, none, 0, buffer, bytes, needed,
            )
        })
    }

    pub fn read_answer(kind: u8, status: u16, body: &[u8]) -> Result<Answer, Status> {
        let mut answer = Answer::default();
        let read = unsafe { osb_read_answer(kind, status, body.as_ptr(), body.len(), &mut answer) };
        done(read, answer)
    }
}

use osb::{Id, Record, Request, Status};

/// Stands for a write to the platform's database.
fn store(record: &Record) -> Result<(), Status> {
    println!("stored {}", record.to_text()?);
    Ok(())
}

/// Stands for a request to the broker, by an HTTP library.
fn request_by_http(request: &Request) -> Result<(), Status> {
    println!("sent   {} {}", osb::write_method(request.kind)?, osb::write_target(request)?);
    Ok(())
}

fn main() -> Result<(), Status> {
    let (id, service, plan) = (Id { high: 0, low: 1 }, Id { high: 0, low: 0xa0 }, Id { high: 0, low: 0xb1 });
    let (mut record, request) = Record::create(id, service, plan);
    store(&record)?;
    request_by_http(&request)?;

    // What came back: a status and a body.
    match osb::read_answer(request.kind, 500, br#"{"description":"The disk is full."}"#) {
        Ok(answer) => record.answer(record.attempt, answer)?,
        Err(_) => record.time_out(record.attempt)?,
    }
    store(&record)?;

    let deprovision = record.send(id)?;
    store(&record)?;
    request_by_http(&deprovision)
}
