/* The charger and the selector, one event at a time. Every check of an event comes before its first change, so that a refusal
   leaves the machine as it stood. */
#include "machine.c"

/* Forgets all that was asked of the charger, and lets wake-up begin anew. */
static void fresh_start(struct machine *m)
{
    const struct request none = {0, 0, false};
    m->current = none;
    m->voltage = none;
    m->wake_age = 0;
    m->spent = false;
    m->hold = false;
}

/* Connects another bay, which starts the charger afresh. */
static void set_charge(struct machine *m, unsigned nibble)
{
    if (nibble != m->charge) {
        m->charge = (uint8_t)nibble;
        fresh_start(m);
    }
}

/* A request for current or voltage, which ends wake-up, even one for 0. */
static void write_request(struct machine *m, struct request *r, uint16_t word)
{
    const struct request written = {word, 0, true};
    *r = written;
    m->spent = true;
    if (m->current.mark && m->voltage.mark)
        m->hold = false;
}

/* AlarmWarning: one of bits 15 to 12 puts the hold on, none lifts it. */
static void write_alarm(struct machine *m, uint16_t word)
{
    m->hold = (word & 0xF000) != 0;
    if (m->hold) {
        m->current.mark = false;
        m->voltage.mark = false;
    }
}

/* The three charger words that host and bays share. */
static enum refusal write_charger(struct machine *m, uint8_t code, uint16_t word)
{
    switch (code) {
    case 0x14: write_request(m, &m->current, word); return NONE;
    case 0x15: write_request(m, &m->voltage, word); return NONE;
    case 0x16: write_alarm(m, word); return NONE;
    default: return NO_SUCH_WORD;
    }
}

/* ChargerMode: bit 2 starts afresh, else bit 0 inhibits and bit 3 zeroes both requests, which ends wake-up. */
static void write_mode(struct machine *m, uint16_t word)
{
    if (word & 4) {
        fresh_start(m);
        m->inhibit = false;
        return;
    }
    m->inhibit = word & 1;
    if (word & 8) {
        m->current.word = 0;
        m->voltage.word = 0;
        m->spent = true;
    }
}

/* Whether the bays that a SelectorState word names, and AC, can be used as it says; 0 and 0xF name no bay. */
static bool is_usable(const struct machine *m, unsigned smb, unsigned power, unsigned charge)
{
    if (smb != 0xF && smb != 0 && !bay_named(m, smb)->present)
        return false;
    if (power != 0xF && (power == 0 ? !m->ac : !is_candidate(bay_named(m, power))))
        return false;
    if (charge == 0xF || charge == 0)
        return true;
    const struct bay *bay = bay_named(m, charge);
    return bay->present && bay->ok;
}

/* SelectorState; 0xF leaves a nibble as it is. */
static enum refusal write_state(struct machine *m, uint16_t word)
{
    unsigned smb = word >> 12, power = word >> 8 & 0xF, charge = word >> 4 & 0xF;
    unsigned supported = m->setup.supported;
    if ((smb != 0xF && !is_one_of(supported, smb)) || (power != 0xF && !is_one_of(supported, power))
        || (charge != 0xF && !is_one_of(supported, charge)))
        return BAD_NIBBLE;
    if (power != 0xF && power != 0 && smb != power)
        return SMB_ELSEWHERE;
    if (!is_usable(m, smb, power, charge))
        return NOT_USABLE;
    unsigned next_power = power == 0xF ? m->power : power;
    unsigned next_charge = charge == 0xF ? m->charge : charge;
    if ((power != 0xF || charge != 0xF) && next_power != 0 && next_power == next_charge)
        return SAME_BAY;
    if (smb != 0xF)
        m->smb = (uint8_t)smb;
    m->power = (uint8_t)next_power;
    set_charge(m, next_charge);
    return NONE;
}

/* SelectorPresets: USE_NEXT, and the OK marks of the packs; a pack that is not OK any more is not charged on. */
static enum refusal write_presets(struct machine *m, uint16_t word)
{
    unsigned next = word >> 4 & 0xF;
    if (!is_one_of(m->setup.supported, next))
        return BAD_NIBBLE;
    m->next = (uint8_t)next;
    for (unsigned b = 0; b < BAYS; b++)
        m->bays[b].ok = m->bays[b].present && (word >> b & 1);
    if (is_present(m, m->charge) && !(word & m->charge))
        set_charge(m, 0);
    return NONE;
}

/* A word that the host writes. */
static enum refusal host_write(struct machine *m, uint8_t address, uint8_t code, uint16_t word)
{
    if (address == 0x12) {
        if (code != 0x12)
            return write_charger(m, code, word);
        write_mode(m, word);
        return NONE;
    }
    if (address == 0x14 && code == 0x01)
        return write_state(m, word);
    if (address == 0x14 && code == 0x02)
        return write_presets(m, word);
    return NO_SUCH_WORD;
}

/* A word that the host reads; reading SelectorState clears the notice. */
static enum refusal host_read(struct machine *m, uint8_t address, uint8_t code, unsigned *word)
{
    switch (address << 8 | code) {
    case 0x1211: *word = 0x0002; return NONE;
    case 0x1213: *word = charger_status(m); return NONE;
    case 0x1401: *word = selector_state(m); m->notice = false; return NONE;
    case 0x1402: *word = selector_presets(m); return NONE;
    case 0x1404: *word = 0x0110u + m->setup.supported; return NONE;
    default: return NO_SUCH_WORD;
    }
}

/* Whether a bay's number is one of a supported bay. */
static bool is_supported(const struct machine *m, uint8_t b)
{
    return b < BAYS && (m->setup.supported >> b & 1);
}

/* A word from a bay to the charger. */
static enum refusal bay_word(struct machine *m, uint8_t b, uint8_t code, uint16_t word)
{
    if (!is_supported(m, b))
        return UNSUPPORTED_BAY;
    if (code < 0x14 || code > 0x16)
        return NO_SUCH_WORD;
    if (!m->bays[b].present || m->charge != 1u << b)
        return NOT_CHARGING_BAY;
    return write_charger(m, code, word);
}

/* A pack put in (OK, with nothing read) or pulled (with nothing left of it). */
static enum refusal set_presence(struct machine *m, uint8_t b, bool present)
{
    if (!is_supported(m, b))
        return UNSUPPORTED_BAY;
    if (m->bays[b].present == present)
        return WRONG_PRESENCE;
    const struct bay bay = {present, present, false, false, 0};
    m->bays[b] = bay;
    if (m->charge == 1u << b)
        fresh_start(m);
    m->notice = true;
    return NONE;
}

/* The safety signal of a bay. */
static enum refusal set_ohms(struct machine *m, uint8_t b, uint32_t ohms)
{
    if (!is_supported(m, b))
        return UNSUPPORTED_BAY;
    if (!m->bays[b].present)
        return WRONG_PRESENCE;
    m->bays[b].was_read = true;
    m->bays[b].ohms = ohms;
    return NONE;
}

/* The terminal voltage of a bay, which sets or clears its low mark. */
static enum refusal set_terminal(struct machine *m, uint8_t b, uint16_t millivolts)
{
    if (!is_supported(m, b))
        return UNSUPPORTED_BAY;
    if (!m->bays[b].present)
        return WRONG_PRESENCE;
    if (millivolts < m->setup.low)
        m->bays[b].low = true;
    else if (millivolts >= m->setup.restart)
        m->bays[b].low = false;
    return NONE;
}

/* AC comes, and wake-up has its time from there, or goes; said again, it changes nothing. */
static void set_ac(struct machine *m, bool present)
{
    if (m->ac == present)
        return;
    m->ac = present;
    m->notice = true;
    if (present) {
        m->power = 0;
        m->wake_age = 0;
    } else {
        fresh_start(m);
    }
}

/* A second more of a request's age; at 175 it ends. */
static void grow_older(struct request *r)
{
    if (r->age < OLDEST)
        r->age++;
    if (r->age == OLDEST)
        r->word = 0;
}

/* What an event does by itself; *word is set by a read. */
static enum refusal act(struct machine *m, const struct event *e, unsigned *word)
{
    switch (e->kind) {
    case HOST_WRITE: return host_write(m, e->place, e->code, (uint16_t)e->value);
    case HOST_READ: return host_read(m, e->place, e->code, word);
    case BAY_WORD: return bay_word(m, e->place, e->code, (uint16_t)e->value);
    case INSERTION: return set_presence(m, e->place, true);
    case REMOVAL: return set_presence(m, e->place, false);
    case OHMS: return set_ohms(m, e->place, e->value);
    case TERMINAL: return set_terminal(m, e->place, (uint16_t)e->value);
    case AC: set_ac(m, e->value != 0); return NONE;
    case TICK: break;
    }
    grow_older(&m->current);
    grow_older(&m->voltage);
    if (m->wake_age < OLDEST)
        m->wake_age++;
    return NONE;
}

/* The three steps after each accepted event: SMB, POWER_BY, and a bay to power the shelf where AC does not. */
static void settle(struct machine *m)
{
    unsigned before = m->power;
    if (m->smb != 0 && !bay_named(m, m->smb)->present)
        m->smb = 0;
    if (m->power != 0 && !is_candidate(bay_named(m, m->power)))
        m->power = 0;
    if (m->power == 0 && !m->ac) {
        m->power = (uint8_t)choose(m, 0);
        if (m->power != 0)
            m->smb = m->power;
    }
    if (m->power != before)
        m->notice = true;
}

/* One event: the answer; the machine is changed in place, or left as it stands by a refusal. */
static struct answer step(struct machine *m, const struct event *e)
{
    struct answer answer = {REFUSED, 0, BAD_MACHINE};
    if (is_bad(m))
        return answer;
    unsigned word = 0;
    answer.refusal = (uint8_t)act(m, e, &word);
    if (answer.refusal != NONE)
        return answer;
    settle(m);
    answer.kind = e->kind == HOST_READ ? WORD : DONE;
    answer.word = (uint16_t)word;
    return answer;
}

/* The machine at power-on; refusal 1 leaves that of the program's setup. */
static enum refusal power_on(struct machine *m, const struct setup *setup)
{
    const struct machine off = {0};
    bool good = is_good_setup(setup);
    *m = off;
    m->setup = good ? *setup : program_setup;
    return good ? NONE : BAD_SETUP;
}
