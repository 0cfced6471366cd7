//! Published frames with their CRCs through the poll of libgateway.a, with either firmware; each exchange names its source.

use gateway::ffi;
use gateway::states::{state_of, ZEROS};
use model::layout::FIRMWARES;
use model::published::{live_table, EXCHANGES};

/// What the reply buffer holds as it is lent.
const LENT: u8 = 0xAA;

#[test]
fn polls_are_answered_as_published() {
    for (exchange, firmware) in EXCHANGES.iter().flat_map(|exchange| FIRMWARES.map(|firmware| (exchange, firmware))) {
        let (raw, mut archive) = exchange.stands(firmware);
        let (s, mut request) = (state_of(&raw, None, &ZEROS), exchange.request());
        let mut reply = [LENT; 300];
        let answer = ffi::poll(s, &mut archive, &mut live_table(), &mut request, &mut reply);
        assert_eq!((answer.number, answer.state), (0, s), "{}", exchange.source);
        let (sent, rest) = reply.split_at(answer.length as usize);
        assert_eq!(sent, exchange.reply(), "{}", exchange.source);
        assert!(rest.iter().all(|&byte| byte == LENT), "{}", exchange.source);
    }
}
