//! Document 001's components without functions, with the restored prints.

use super::Stored;

fn component(name: &str, rest: &str) -> String {
    format!(
        "INFO {{\n  TITLE:       \"AMBA AHB Arbiter\"\n  DESCRIPTION: \"Component: {name}\"\n  \
         SEMANTICS:   Mealy\n  TARGET:      Mealy\n}}\n{rest}"
    )
}

pub fn decode() -> String {
    component(
        "Decode",
        "GLOBAL { DEFINITIONS {
    enum hburst =
      Single: 00
      Burst4: 10
      Incr:   01
  }
}
MAIN {
  INPUTS { hburst HBURST; }
  OUTPUTS { SINGLE; BURST4; INCR; }
  ASSERT {
    HBURST == Single -> SINGLE;
    HBURST == Burst4 -> BURST4;
    HBURST == Incr -> INCR;
    !(SINGLE && (BURST4 || INCR)) && !(BURST4 && INCR);
  }
}",
    )
}

pub fn shift() -> String {
    component(
        "Shift",
        "MAIN {
  INPUTS { HREADY; LOCKED; }
  OUTPUTS { HMASTLOCK; }
  ASSERT {
    // if HREADY is high, the component copies LOCKED to HMASTLOCK, shifted by one time step
    HREADY -> (X HMASTLOCK <-> LOCKED);
    // if HREADY is low, the old value of HMASTLOCK is copied
    !HREADY -> (X HMASTLOCK <-> HMASTLOCK);
  }
}",
    )
}

pub fn single() -> String {
    component(
        "TSingle",
        "MAIN {
  INPUTS { SINGLE; HREADY; LOCKED; DECIDE; }
  OUTPUTS { READY3; }
  INITIALLY {
    // initially no decision is taken
    !DECIDE;
  }
  PRESET {
    // at startup, the component is ready
    READY3;
  }
  REQUIRE {
    // decisions are only taken if the component is ready
    !READY3 -> X !DECIDE;
  }
  ASSUME {
    // a slave cannot block the bus
    G F HREADY
  }
  ASSERT {
    // for each single, locked transmission, the bus is locked for one time step
    DECIDE ->
     X[2] (((SINGLE && LOCKED) -> (!READY3 U (HREADY && !READY3 && X READY3))) &&
            (!(SINGLE && LOCKED) -> READY3));
    // the component stays ready as long as there is no decision
    READY3 && X !DECIDE -> X READY3;
    // if there is a decision the component blocks the bus for at least two time steps
    READY3 && X DECIDE -> G[1:2] ! READY3;
  }
}",
    )
}

pub fn burst() -> String {
    component(
        "TBurst4",
        "MAIN {
  INPUTS { BURST4; HREADY; LOCKED; DECIDE; }
  OUTPUTS { READY2; }
  INITIALLY { !DECIDE; }
  PRESET { READY2; }
  REQUIRE {
    // decisions are only taken if the component is ready
    !READY2 -> X !DECIDE;
  }
  ASSUME {
    // a slave block the bus
    G F HREADY;
  }
  ASSERT {
    // for each burst4, locked transmission, the bus is locked for four time steps
    DECIDE ->
      X[2] (((BURST4 && LOCKED) -> (!READY2 U (HREADY && !READY2 && X (!READY2 U (HREADY &&
             !READY2 && X (!READY2 U (HREADY && !READY2 && X (!READY2 U (HREADY &&
             !READY2 && X READY2))))))))) &&
            (!(BURST4 && LOCKED) -> READY2));
    // the component stays ready as long as there is no decision
    READY2 && X !DECIDE -> X READY2;
    // if there is a decision the component blocks the bus for at least two time steps
    READY2 && X DECIDE -> G[1:2] ! READY2;
  }
}",
    )
}

pub fn incremental(ready: &str) -> String {
    component(
        "TIncr",
        &format!(
            "MAIN {{
    INPUTS {{ INCR; HREADY; LOCKED; DECIDE; BUSREQ; }}
    OUTPUTS {{ READY1; }}
    INITIALLY {{ !DECIDE; }}
    PRESET {{ READY1; }}
    REQUIRE {{
      // decisions are only taken if the component is ready
      !READY1 -> X !DECIDE;
    }}
    ASSUME {{
      // slaves and masters cannot block the bus
      G F HREADY && G F !BUSREQ;
    }}
    ASSERT {{
      // for each incremental, locked transmission, the bus is locked as long as requested
      DECIDE ->
       X[2] (((INCR && LOCKED) -> (!READY1 W (HREADY && !BUSREQ))) &&
              (!(INCR && LOCKED) -> READY1));
      // the component stays ready as long as there is no decision
      {ready} && X !DECIDE -> X READY1;
      // if there is a decision the component blocks the bus for at least two time steps
      READY1 && X DECIDE -> G[1:2] ! READY1;
    }}
}}"
        ),
    )
}

/// All of them; the last two as printed, where `READY` is not declared, and with `READY1` there.
pub fn components() -> Vec<Stored> {
    vec![
        Stored::new("Decode", decode()),
        Stored::new("Shift", shift()),
        Stored::new("TSingle", single()),
        Stored::new("TBurst4", burst()),
        Stored::new("TIncr as printed", incremental("READY")),
        Stored::new("TIncr with READY1", incremental("READY1")),
    ]
}
