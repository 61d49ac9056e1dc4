// The deliberate faults of the test of the test. Each is one text of the peer that is replaced by another, in a copy of its own that
// the build makes; the differential test must tell every such copy from the register. The first five are the "mistakes near at hand"
// of document 01.

pub struct Fault {
    /// The mistake; also the name of the copy.
    pub name: &'static str,
    /// The sentence of document 01, or of a request of document 02, that it breaks.
    pub breaks: &'static str,
    pub file: &'static str,
    /// Stands exactly once in the file.
    pub old: &'static str,
    pub new: &'static str,
}

pub const FAULTS: [Fault; 28] = [
    Fault {
        name: "neutral_hour_rounded_up",
        breaks: "First counted step: floor(m/30)+2 for the clock's day",
        file: "register.rs",
        old: "self.minute as usize / 30 + 2",
        new: "(self.minute as usize).div_ceil(30) + 2",
    },
    Fault {
        name: "only_32_and_33_on_a_replacement",
        breaks: "34, 35: ceder above its approved power; acquirer below 0",
        file: "register.rs",
        old: "first(34, giving.iter().position(|&p| p > ceders))?;\n    first(35, taking.iter().position(|&p| p < 0))",
        new: "Ok(())",
    },
    Fault {
        name: "pairs_counted_steps_only",
        breaks: "the same power at every step, counted or not",
        file: "register.rs",
        old: "records[i].powers == n.powers",
        new: "records[i].powers[from..] == n.powers[from..]",
    },
    Fault {
        name: "opposite_keys_netted",
        breaks: "A to B and B to A are two keys",
        file: "register.rs",
        old: "match (r.status, r.ceder == ceder && r.acquirer == acquirer) {",
        new: "match (r.status, [[ceder, acquirer], [acquirer, ceder]].contains(&[r.ceder, r.acquirer])) {",
    },
    Fault {
        name: "old_power_subtracted_twice",
        breaks: "ceder g+u-w, acquirer h-u+w",
        file: "register.rs",
        old: "(Status::Valid, true) => valid = Some(i),",
        new: "(Status::Valid, true) => {
                valid = Some(i);
                if r.from as usize != from {
                    add(&mut giving, &r.powers);
                    subtract(&mut taking, &r.powers);
                }
            }",
    },
    Fault {
        name: "updated_goes_on_counting",
        breaks: "otherwise it becomes P and its until-step is the new from-step",
        file: "register.rs",
        old: "(earlier.status, earlier.until) = (Status::Updated, from as u8);",
        new: "earlier.status = Status::Updated;",
    },
    Fault {
        name: "own_created_not_deleted",
        breaks: "The submitter's own C record under the key, if any, becomes S",
        file: "register.rs",
        old: "if let Some(i) = own {\n            records.items[i].status = Status::Deleted;\n            market.flip(i);\n        }",
        new: "let _ = own;",
    },
    Fault {
        name: "place_from_the_first_counted_step",
        breaks: "They carry the lowest counted step that fails as their place",
        file: "register.rs",
        old: ".map_err(|(number, k)| no(number, from + k))?;",
        new: ".map_err(|(number, k)| no(number, k))?;",
    },
    Fault {
        name: "lines_counted_after_the_fault",
        breaks: "Order: filing 1 to 8 (5 before 6 and 7)",
        file: "notification.rs",
        old: "return Err(if lines == count { no(number, k + 2) } else { no(5, 0) });",
        new: "let _ = lines;\n                return Err(no(number, k + 2));",
    },
    Fault {
        name: "history_in_the_order_of_filing",
        breaks: "K1: the history runs by day",
        file: "register.rs",
        old: "Ok(count)",
        new: "ids[..count].sort_unstable();\n        Ok(count)",
    },
    Fault {
        name: "history_latest_day_first",
        breaks: "K1: by day, earliest first",
        file: "register.rs",
        old: "Ok(count)",
        new: "ids[..count].sort_by_key(|&id| (!self.records[id as usize - 1].day, id));\n        Ok(count)",
    },
    Fault {
        name: "history_highest_id_first_within_a_day",
        breaks: "K1: within a day by id, lowest first",
        file: "register.rs",
        old: "Ok(count)",
        new: "ids[..count].sort_by_key(|&id| (self.records[id as usize - 1].day, !id));\n        Ok(count)",
    },
    Fault {
        name: "last_place_of_a_buffer_left_out",
        breaks: "the ids of all such records into a lent buffer",
        file: "register.rs",
        old: "(ids[at], at) = (place as u16 + 1, at + 1)",
        new: "{
                if at + 1 < ids.len() {
                    ids[at] = place as u16 + 1;
                }
                at += 1;
            }",
    },
    Fault {
        name: "neutral_hour_ends_at_midnight",
        breaks: "K2: for the day after the clock's, floor(m/30)+2 less the clock day's step count",
        file: "register.rs",
        old: "1 => first.saturating_sub(steps(self.day)),",
        new: "1 => 0,",
    },
    Fault {
        name: "step_count_of_the_delivery_day",
        breaks: "K2: less the clock day's step count",
        file: "register.rs",
        old: "first.saturating_sub(steps(self.day))",
        new: "first.saturating_sub(steps(day))",
    },
    Fault {
        name: "tomorrows_exchange_obsolete",
        breaks: "K2: O only if its from-step equals the new one or the new one is 0",
        file: "register.rs",
        old: "if earlier.from as usize == from || from == 0 {",
        new: "if earlier.from as usize == from || n.day > self.day {",
    },
    Fault {
        name: "load_for_tomorrow_in_the_last_half_hour",
        breaks: "K2: 39 when the next day's first counted step isn't 0",
        file: "register.rs",
        old: "hold(day > self.day && self.first_counted(day) == 0, 39)?;",
        new: "hold(day > self.day, 39)?;",
    },
    Fault {
        name: "origin_not_compared",
        breaks: "K3: 43 when the origin member isn't the submitter",
        file: "register.rs",
        old: "hold(object.origin == *submitter, 43)?;",
        new: "",
    },
    Fault {
        name: "origin_before_the_powers",
        breaks: "K3: 43 next after 8",
        file: "register.rs",
        old: "object::read(body)?;",
        new: "object::read(body).map_err(|r| {
            let codes = body.windows(18).filter(|t| [t[0], t[17]] == *b\"\\\"\\\"\" && code_of(&t[1..17]).is_some());
            let other = codes.map(|t| &t[1..17]).nth(2).is_some_and(|origin| origin != submitter);
            if r.number == 8 && other { no(43, 0) } else { r }
        })?;",
    },
    Fault {
        name: "steps_of_an_object_counted_from_0",
        breaks: "K3: the place of 6 and 7 the step counted from 1",
        file: "object.rs",
        old: "no(number, s.len + 1)",
        new: "no(number, s.len)",
    },
    Fault {
        name: "labels_before_the_step_count",
        breaks: "K3: with 5 to 8 following",
        file: "object.rs",
        old: "_ if len != count => Err(no(5, 0)),\n        Some(refusal) => Err(refusal),",
        new: "Some(refusal) => Err(refusal),\n        _ if len != count => Err(no(5, 0)),",
    },
    Fault {
        name: "power_before_the_labels",
        breaks: "6 and 7 are tried line by line, 6 first",
        file: "object.rs",
        old: "if start.right && end.right { value.is_none().then_some(7) } else { Some(6) };",
        new: "if value.is_none() { Some(7) } else { (!start.right || !end.right).then_some(6) };",
    },
    Fault {
        name: "last_wrong_step_named",
        breaks: "6 and 7 are tried line by line",
        file: "object.rs",
        old: "s.fault.or(fault.map(|number| no(number, s.len + 1)))",
        new: "fault.map(|number| no(number, s.len + 1)).or(s.fault)",
    },
    Fault {
        name: "delivery_at_any_time",
        breaks: "K3: the delivery day is the date part of DateExploitation and its time is 00:00:00",
        file: "object.rs",
        old: "2099-19-39T00:00:00Z",
        new: "2099-19-39T29:59:59Z",
    },
    Fault {
        name: "comma_after_the_last_step",
        breaks: "K3: 42 when the text isn't such an object",
        file: "object.rs",
        old: "[b',', rest @ ..] => text = rest,",
        new: "[b',', rest @ ..] => match blanks(rest) {
                [b']', rest @ ..] => return Some((s, rest)),
                _ => text = rest,
            },",
    },
    Fault {
        name: "text_after_the_object",
        breaks: "K3: blanks, tabs, CR and LF may stand around the object",
        file: "object.rs",
        old: "if !blanks(token(rest, b\"}\")?).is_empty() {",
        new: "if token(rest, b\"}\").is_none() {",
    },
    Fault {
        name: "object_one_byte_too_long",
        breaks: "K3: a JSON body is at most 8,192 bytes",
        file: "object.rs",
        old: "hold(body.len() <= MAX_OBJECT, 42)?;",
        new: "hold(body.len() <= MAX_OBJECT + 1, 42)?;",
    },
    Fault {
        name: "no_tab_between_tokens",
        breaks: "K3: blanks, tabs, CR and LF may stand between tokens",
        file: "object.rs",
        old: "while let [b' ' | b'\\t' | b'\\r' | b'\\n', rest @ ..] = text {",
        new: "while let [b' ' | b'\\r' | b'\\n', rest @ ..] = text {",
    },
];
