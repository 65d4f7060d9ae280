//! Compiled as a child of the unchanged `mcos_reader`, so that its private
//! items are in reach.

use super::*;

pub(crate) fn decode_saveobj(payload: &[u64]) -> Result<Vec<String>, MatError> {
    decode_string_saveobj(payload)
}

impl Mcos {
    /// Names, class entries, object records, saved blocks and normal blocks.
    pub(crate) fn counts(&self) -> [usize; 5] {
        let wrapper = &self.wrapper;
        [
            wrapper.names.len(),
            wrapper.classes.len(),
            wrapper.objects.len(),
            wrapper.seg1.len(),
            wrapper.seg2.len(),
        ]
    }

    /// What `properties` answers, each with the three numbers of its triple.
    ///
    /// `properties` keeps no name index, so the block is looked up again; the
    /// two views are held against each other.
    pub(crate) fn property_rows(
        &self,
        object_id: u32,
    ) -> Result<Vec<([u32; 3], PropRef)>, MatError> {
        let refs = self.properties(object_id)?;
        let record = self.object_record(object_id)?;
        let block = match (record.saveobj_id, record.normalobj_id) {
            (0, 0) => None,
            (0, normal) => self.wrapper.seg2.get(normal.to_usize()?),
            (saved, _) => self.wrapper.seg1.get(saved.to_usize()?),
        };
        let triples = block.map_or(&[][..], |block| &block.props);
        assert_eq!(refs.len(), triples.len(), "the accessor took another block");

        let mut rows = Vec::with_capacity(refs.len());
        for (triple, prop) in triples.iter().zip(refs) {
            let same_value = match &prop.value {
                PropValue::Name(text) => {
                    triple.field_type == FIELD_TYPE_NAME && *text == self.name(triple.value)?
                }
                PropValue::Heap(value) => {
                    triple.field_type == FIELD_TYPE_HEAP && *value == triple.value
                }
                PropValue::Inline(value) => {
                    triple.field_type == FIELD_TYPE_INLINE && *value == triple.value
                }
            };
            let same_name = prop.name == self.name(triple.name_idx)?;
            assert!(same_name && same_value, "the accessor took another triple");
            rows.push(([triple.name_idx, triple.field_type, triple.value], prop));
        }
        Ok(rows)
    }
}
