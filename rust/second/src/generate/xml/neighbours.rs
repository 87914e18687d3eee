//! A small text with a little of everything, and every text that is one byte away from it.

use super::{XmlJob, XmlKind};
use crate::MOST_BYTES;

pub const SMALL_TEXT: &str = concat!(
    "<!--a-b-->\r\n<unit id='7' canResegment=\"no\"><segment id=\"2\" state=\"f&#105;nal\">",
    "<source>é&amp;<!----> ]&#x41;<pc id=\"3\" canOverlap = \"yes\">\r<sc id=\"4\"/></pc>",
    "<ec startRef=\"4\"/><cp hex=\"001F\"></cp></source>\t<target order=\"1\">",
    "<mrk id=\"5\" translate=\"no\">&#13;</mrk><ph id=\"6\"><!--c--></ph><pc id=\"9\"/></target>",
    "</segment ><ignorable><source/></ignorable></unit> <!---->",
);

/// Bytes that mean something to XML, and some that never do.
const BYTES: &[u8] = b"<>/&;\"'= \r-!?]#x0a\x01\xC3\xFF";

/// The text cut at each byte, and with each byte dropped, doubled, replaced and preceded.
pub fn xml_neighbours() -> Vec<XmlJob> {
    let text = SMALL_TEXT.as_bytes();
    let mut texts = vec![text.to_vec()];
    for place in 0..text.len() {
        let (before, behind) = text.split_at(place);
        texts.push(before.to_vec());
        texts.push([before, &behind[1..]].concat());
        texts.push([before, &behind[..1], behind].concat());
        for byte in BYTES {
            texts.push([before, &[*byte], &behind[1..]].concat());
            texts.push([before, &[*byte], behind].concat());
        }
    }
    let job = |input| XmlJob { kind: XmlKind::Damaged, room: MOST_BYTES, input };
    texts.into_iter().map(job).collect()
}
