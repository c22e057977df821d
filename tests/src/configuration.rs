//! An accepted text of the shape of a real configuration, as long as it is asked for.

use crate::random::Random;

const HEAD: &str = r#"// Dose readers: one channel for each worker.
OIL_VERSION = "2.5" : "as the supplier delivers it";
IMPLEMENTATION Readers {
  OS {
    ENUM [STANDARD, EXTENDED] STATUS = STANDARD;
    BOOLEAN STARTUPHOOK = FALSE;
    BOOLEAN ERRORHOOK = FALSE;
    BOOLEAN SHUTDOWNHOOK = FALSE;
  };
  APPMODE { };
  TASK {
    BOOLEAN [
      TRUE { APPMODE_TYPE APPMODE[]; } : "started in these modes",
      FALSE
    ] AUTOSTART;
    UINT32 [0..255] PRIORITY;
    UINT32 [1..0xff] ACTIVATION = 1;
    ENUM [NON, FULL] SCHEDULE = FULL;
    UINT32 [64..65535] STACKSIZE = 256 : "bytes";
    EVENT_TYPE EVENT[];
    RESOURCE_TYPE RESOURCE[];
    MESSAGE_TYPE MESSAGE[];
  };
  ISR {
    UINT32 [1, 2] CATEGORY;
    UINT32 [0..127] VECTOR;
    INT32 [-8..7] LEVEL = 0;
    RESOURCE_TYPE RESOURCE[];
  };
  COUNTER {
    UINT32 MINCYCLE;
    UINT32 MAXALLOWEDVALUE;
    UINT32 TICKSPERBASE;
  };
  ALARM {
    COUNTER_TYPE COUNTER;
    ENUM [
      ACTIVATETASK { TASK_TYPE TASK; },
      SETEVENT { TASK_TYPE TASK; EVENT_TYPE EVENT; },
      ALARMCALLBACK { STRING ALARMCALLBACKNAME; }
    ] ACTION;
    BOOLEAN [
      TRUE { UINT32 ALARMTIME = 0; UINT32 CYCLETIME; APPMODE_TYPE APPMODE[]; },
      FALSE
    ] AUTOSTART = FALSE;
  };
  RESOURCE {
    ENUM [STANDARD, LINKED { RESOURCE_TYPE LINKEDRESOURCE; }, INTERNAL] RESOURCEPROPERTY;
  };
  EVENT {
    UINT64 WITH_AUTO MASK = AUTO;
  };
  MESSAGE {
    ENUM [SEND_STATIC_INTERNAL { STRING CDATATYPE; }, RECEIVE_ZERO] MESSAGEPROPERTY;
    ENUM [
      NONE,
      ACTIVATETASK { TASK_TYPE TASK; },
      SETEVENT { TASK_TYPE TASK; EVENT_TYPE EVENT; }
    ] NOTIFICATION = NONE;
  };
};
"#;

const FIRST_OBJECTS: &str = r#"CPU Van {
  OS Os { STATUS = EXTENDED; ERRORHOOK = TRUE; };
  APPMODE Normal;
  APPMODE Service : "on the bench";
  COUNTER Ticks { MINCYCLE = 1; MAXALLOWEDVALUE = 0xffff; TICKSPERBASE = 1; };
"#;

const TAIL: &str = "};\n";

/// The channel of one worker: six objects. `#` stands for the worker's number.
const CHANNEL: &str = r#"
  /* ---- channel #: the badge reader of one worker. Its reading goes to its own dose
     history and to no other; see the papers of the bench. ---- */
  EVENT BadgeSeen# { MASK = MASK_VALUE; };
  RESOURCE Dose# { RESOURCEPROPERTY = STANDARD; };
  TASK Reader# {
    AUTOSTART = AUTOSTART_VALUE;
    PRIORITY = PRIORITY_VALUE;        // by the plan of the bench
    ACTIVATION = 1;       // once at a time
    SCHEDULE = SCHEDULE_VALUE;
    STACKSIZE = STACK_VALUE;      // measured, and a quarter more
    EVENT = BadgeSeen#;
    RESOURCE = Dose#;
    MESSAGE = Reading#;
  } : "reads the badge of worker #";
  ALARM Poll# {
    COUNTER = Ticks;
    ACTION = SETEVENT {
      TASK = Reader#;
      EVENT = BadgeSeen#;
    };
    AUTOSTART = TRUE {
      ALARMTIME = START_VALUE;
      CYCLETIME = CYCLE_VALUE;    // milliseconds
      APPMODE = Normal;
    };
  } : "asks the antenna again";
  ISR Antenna# {
    CATEGORY = 2;
    VECTOR = VECTOR_VALUE;
    LEVEL = LEVEL_VALUE;
    RESOURCE = Dose#;
  };
  MESSAGE Reading# {
    MESSAGEPROPERTY = SEND_STATIC_INTERNAL {
      CDATATYPE = "dose_t";
    };
    NOTIFICATION = SETEVENT {
      TASK = Reader#;
      EVENT = BadgeSeen#;
    };
  };
"#;

const STARTED: &str = "TRUE {
      APPMODE = Normal;
      APPMODE = Service;
    }";

fn channel(number: usize, random: &mut Random) -> String {
    let mask = match random.below(3) {
        0 => "AUTO".to_string(),
        _ => format!("0x{:x}", 1u64 << random.below(64)),
    };
    let level = random.below(16) as i32 - 8;
    CHANNEL
        .replace('#', &format!("{number:03}"))
        .replace("MASK_VALUE", &mask)
        .replace("AUTOSTART_VALUE", random.pick(&[STARTED, "FALSE"]))
        .replace("SCHEDULE_VALUE", random.pick(&["FULL", "NON"]))
        .replace("PRIORITY_VALUE", &random.from_to(1, 200).to_string())
        .replace("STACK_VALUE", &(64 * random.from_to(2, 16)).to_string())
        .replace("START_VALUE", &random.from_to(1, 20).to_string())
        .replace("CYCLE_VALUE", &(10 * random.from_to(1, 100)).to_string())
        .replace("VECTOR_VALUE", &random.below(128).to_string())
        .replace("LEVEL_VALUE", &level.to_string())
}

/// A text of about as many bytes; one count gives always the same text. Past the most objects
/// that a text may have it is filled up with comments.
pub fn configuration(bytes: usize) -> String {
    let random = &mut Random::new(25);
    let mut text = format!("{HEAD}{FIRST_OBJECTS}");
    // Forty-two channels are 252 objects; with the four first ones all 256.
    for number in 1..=42 {
        let more = channel(number, random);
        if text.len() + more.len() + TAIL.len() > bytes {
            break;
        }
        text.push_str(&more);
    }
    text.push_str(TAIL);
    while text.len() + 40 < bytes {
        text.push_str("// kept with the van's papers, page 12\n");
    }
    text
}

#[cfg(test)]
mod tests {
    use super::*;
    use crate::meaning::read;

    #[test]
    fn is_accepted() {
        for bytes in [0, 3_000, 10_000, 51_000, 65_535] {
            let text = configuration(bytes);
            let reading = read(text.as_bytes()).expect("an accepted text");
            assert!(text.len() <= bytes.max(2_000));
            assert!(bytes != 51_000 || reading.objects.len() == 250);
        }
    }
}
