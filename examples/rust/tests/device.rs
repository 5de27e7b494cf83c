//! What types promise of a device, and what it answers to a caller that is wrong.

use std::sync::{Arc, Mutex};
use std::thread;
use wethlorn::*;

const DESC: BufferDesc = BufferDesc {
    size: 64,
    usage: BufferUsage::COPY_DST,
    mapped: 0,
};

#[test]
fn a_device_moves_between_threads() {
    let device = Arc::new(Mutex::new(Device::open(1 << 20, &[], &[]).unwrap()));
    let callers: Vec<_> = (0..4)
        .map(|_| {
            let device = Arc::clone(&device);
            thread::spawn(move || {
                (0..100)
                    .map(|_| device.lock().unwrap().create_buffer(&DESC).unwrap().object().unwrap())
                    .collect()
            })
        })
        .collect();
    let mut numbers: Vec<u64> = callers
        .into_iter()
        .flat_map(|it| -> Vec<u64> { it.join().unwrap() })
        .collect();
    numbers.sort_unstable();
    assert!(numbers.iter().copied().eq(0..400));
}

#[test]
fn a_number_that_names_nothing_is_an_error_and_no_entry() {
    let mut device = Device::open(1024, &[], &[]).unwrap();
    assert_eq!(device.destroy(0), Err(Error::NoObject));
    let made = device.create_buffer(&DESC).unwrap();
    assert_eq!((made.entry, made.object()), (0, Some(0)));
    assert_eq!(device.drop_object(0).unwrap().entry, 1);
    assert_eq!(device.next_item(), Some(Item::Release(0)));
    assert_eq!(device.next_item(), None);
    assert_eq!(device.destroy(0), Err(Error::NoObject));
    assert_eq!(device.create_buffer(&DESC).unwrap().entry, 2);
}

#[test]
fn bytes_that_were_not_written_are_unset() {
    let mut device = Device::open(1024, &[], &[]).unwrap();
    device.create_buffer(&DESC).unwrap();
    device.write_buffer(0, 16, 32).unwrap();
    assert_eq!(device.unset_range(0, 0..64), Ok(Some(0..16)));
    assert_eq!(device.unset_range(0, 16..64), Ok(Some(48..64)));
    assert_eq!(device.unset_range(0, 16..48), Ok(None));
    assert_eq!(device.unset_range(1, 0..4), Err(Error::NoObject));
}

#[test]
fn a_number_of_another_kind_is_a_fault() {
    let mut device = Device::open(1024, &[], &[]).unwrap();
    let buffer = device.create_buffer(&DESC).unwrap().object().unwrap();
    let reply = device.submit(&[buffer]).unwrap();
    assert_eq!(
        reply.fault.map(|fault| (fault.kind, fault.scope)),
        Some((FaultKind::Validation, None))
    );
}

#[test]
fn a_rule_is_told_in_words() {
    let mut device = Device::open(1024, &[], &[]).unwrap();
    let usage = BufferUsage::NONE;
    let rule = device
        .create_buffer(&BufferDesc { usage, ..DESC })
        .unwrap()
        .fault
        .unwrap()
        .rule;
    assert_eq!(rule_text(rule), Some("the usage is not 0 and at most 1023"));
    assert_eq!(rule_section(rule), Some("Buffer Creation"));
    assert_eq!((rule_text(0), rule_section(0)), (None, None));
}

#[test]
fn an_error_scope_receives_a_fault() {
    let mut device = Device::open(1024, &[], &[]).unwrap();
    device.push_error_scope(FILTER_VALIDATION).unwrap();
    let made = device
        .create_buffer(&BufferDesc {
            usage: BufferUsage::NONE,
            ..DESC
        })
        .unwrap();
    assert_eq!(
        made.fault,
        Some(Fault {
            kind: FaultKind::Validation,
            rule: 100,
            scope: Some(0)
        })
    );
    let popped = device.pop_error_scope().unwrap();
    assert_eq!((popped.answer, popped.settles), (Answer::Promised(2), 1));
    let how = How::Error {
        kind: FaultKind::Validation,
        rule: 100,
    };
    assert_eq!(device.next_settlement(), Some(Settlement { promise: 2, how }));
    assert_eq!(device.next_settlement(), None);
}

#[test]
fn what_is_left_out_of_a_descriptor_names_nothing() {
    assert_eq!(GroupEntry::default().object, NONE);
    assert_eq!((Color::default().view, Color::default().resolve), (NONE, NONE));
    let mut device = Device::open(1024, &[], &[]).unwrap();
    let (mut encoder, _) = device.create_encoder().unwrap();
    let copy = device.copy_buffer_to_buffer(&mut encoder, &BufferCopy::default());
    assert_eq!(copy.err(), Some(Error::NoObject));
    let usage = BufferUsage::COPY_DST | BufferUsage::VERTEX;
    assert!(device.create_buffer(&BufferDesc { usage, ..DESC }).unwrap().fault.is_none());
}

#[test]
fn what_is_null_names_nothing() {
    let mut device = Device::open(1024, &[], &[]).unwrap();
    let layout = device.create_pipeline_layout(&[NONE, NONE]).unwrap().object().unwrap();
    let pipeline = device.create_compute_pipeline(layout, &[]).unwrap().object().unwrap();
    let (mut encoder, _) = device.create_encoder().unwrap();
    let pass = device.begin_compute_pass(&mut encoder).unwrap();
    device.set_pipeline(&mut encoder, pass, pipeline).unwrap();
    device.set_bind_group(&mut encoder, pass, 0, NONE, &[]).unwrap();
    device.dispatch(&mut encoder, pass, 1, 1, 1).unwrap();
    device.insert_debug_marker(&mut encoder, pass).unwrap();
    device.end(&mut encoder, pass).unwrap();
    assert_eq!(device.finish(&mut encoder).unwrap().fault, None);
}

/// The rule that a reply tells, if there is one.
fn rule_of(reply: Result<Reply, Error>) -> Result<Option<u32>, Error> {
    Ok(reply?.fault.map(|fault| fault.rule))
}

#[test]
fn what_samplers_and_pipelines_fix_is_judged() {
    let mut device = Device::open(1024, &[], &[]).unwrap();
    let sampler = SamplerDesc::default();
    let none = SamplerDesc {
        max_anisotropy: 0,
        ..sampler
    };
    let odd = SamplerDesc { compare: 9, ..sampler };
    assert_eq!(rule_of(device.create_described_sampler(&sampler)), Ok(None));
    assert_eq!(rule_of(device.create_described_sampler(&none)), Ok(Some(406)));
    assert_eq!(device.create_described_sampler(&odd), Err(Error::BadValue));
    let target = Target {
        format: RGBA8_UNORM,
        write_mask: ColorWrite::RED | ColorWrite::ALPHA,
        ..Target::default()
    };
    let desc = RenderDesc::default();
    let deep = RenderDesc {
        depth_format: DEPTH32_FLOAT,
        ..desc
    };
    let mut made = |desc, targets: &[Target]| rule_of(device.create_render_pipeline(desc, &[], &[], &[], targets));
    assert_eq!(made(&desc, &[Target::default(), target]), Ok(None));
    assert_eq!(
        made(
            &desc,
            &[Target {
                write_mask: ColorWrite(16),
                ..target
            }]
        ),
        Ok(Some(410))
    );
    assert_eq!(made(&deep, &[target]), Ok(Some(414)));
}

#[test]
fn values_out_of_range_are_errors() {
    let mut device = Device::open(1024, &[], &[]).unwrap();
    assert_eq!(device.push_error_scope(0), Err(Error::BadValue));
    let (mut encoder, _) = device.create_encoder().unwrap();
    assert_eq!(device.end(&mut encoder, 3), Err(Error::NoPass));
    let left = 2;
    let viewport = device.set_viewport(
        &mut encoder,
        0,
        &Viewport {
            left,
            ..Viewport::default()
        },
    );
    assert_eq!(viewport, Err(Error::BadValue));
    assert_eq!(device.limit(0), Err(Error::BadValue));
}

#[test]
fn a_device_has_the_limits_that_its_adapter_lets_one_ask_for() {
    let sized = |value| Limit {
        name: MAX_BUFFER_SIZE,
        value,
    };
    let (best, more) = (sized(DEFAULT_MAX_BUFFER_SIZE + 4), sized(DEFAULT_MAX_BUFFER_SIZE + 8));
    let opened = |best: &[Limit], limits: &[Limit]| Device::open(1024, best, limits).map(|mut it| it.limit(MAX_BUFFER_SIZE));
    assert_eq!(opened(&[], &[]).unwrap(), Ok(DEFAULT_MAX_BUFFER_SIZE));
    assert_eq!(opened(&[best], &[best]).unwrap(), Ok(best.value));
    assert_eq!(opened(&[best], &[best, more]).err(), Some(Error::BadLimit(1)));
    assert_eq!(opened(&[best, sized(0)], &[more]).err(), Some(Error::BadBest(1)));
    assert_eq!(opened(&[], &[sized(u64::MAX)]).err(), Some(Error::BadLimit(0)));
    assert_eq!(opened(&[], &[sized(BEST_MAX_BUFFER_SIZE)]).unwrap(), Ok(BEST_MAX_BUFFER_SIZE));
}

#[test]
fn a_close_tells_what_was_not_drained() {
    let mut device = Device::open(1024, &[], &[]).unwrap();
    let buffer = device.create_buffer(&DESC).unwrap().object().unwrap();
    device.drop_object(buffer).unwrap();
    device.push_error_scope(FILTER_VALIDATION).unwrap();
    device.pop_error_scope().unwrap();
    assert_eq!(
        device.close(),
        Left {
            items: 1,
            settlements: 1
        }
    );
    assert_eq!(
        Device::open(1024, &[], &[]).unwrap().close(),
        Left {
            items: 0,
            settlements: 0
        }
    );
}

#[test]
fn the_library_is_of_the_version_of_the_crate() {
    let numbers = VERSION.split('.').map(|part| part.parse::<u32>().unwrap());
    assert_eq!(
        version(),
        numbers.zip([10_000, 100, 1]).map(|(number, weight)| number * weight).sum()
    );
}

#[test]
fn all_items_are_those_that_are_told_one_by_one() {
    let played = |count: u64| {
        let mut device = Device::open(1 << 20, &[], &[]).unwrap();
        for _ in 0..count {
            let buffer = device.create_buffer(&DESC).unwrap().object().unwrap();
            device.write_buffer(buffer, 4, 8).unwrap();
        }
        device
    };
    for count in [0, 1, 200] {
        let mut device = played(count);
        let singly: Vec<Item> = std::iter::from_fn(|| device.next_item()).collect();
        assert!(singly.len() as u64 >= count);
        assert_eq!(played(count).items(), singly);
    }
}

#[test]
fn threads_record_at_once() {
    let mut device = Device::open(1024, &[], &[]).unwrap();
    let buffer = device.create_buffer(&DESC).unwrap().object().unwrap();
    let mut encoders: Vec<_> = (0..4).map(|_| device.create_encoder().unwrap().0).collect();
    let shared = &device;
    thread::scope(|scope| {
        for encoder in &mut encoders {
            scope.spawn(move || shared.clear_buffer(encoder, buffer, 0, 4).unwrap());
        }
    });
    for encoder in &mut encoders {
        assert_eq!(device.finish(encoder).unwrap().fault, None);
        assert_eq!(device.clear_buffer(encoder, buffer, 0, 4), Err(Error::Late));
        assert_eq!(device.late(encoder).unwrap().fault.map(|fault| fault.rule), Some(14));
    }
}
