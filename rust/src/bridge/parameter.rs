//! The parameters of an entry as they go over the bridge.
use super::batch::Batch;

/// What a slice is of, with the name that `c/serve.c` has for it.
pub trait Element: Sized {
    const TYPE: &'static str;

    fn to_bytes(slice: &[Self]) -> Vec<u8>;

    /// Fills a slice with what stands in as many bytes.
    fn fill_from(slice: &mut [Self], bytes: &[u8]);
}

macro_rules! elements {
    ($($element:ident)*) => { $(
        impl Element for $element {
            const TYPE: &'static str = stringify!($element);

            fn to_bytes(slice: &[Self]) -> Vec<u8> {
                slice.iter().flat_map(|element| element.to_le_bytes()).collect()
            }

            fn fill_from(slice: &mut [Self], bytes: &[u8]) {
                let (elements, rest) = bytes.as_chunks();
                assert_eq!((elements.len(), rest), (slice.len(), &[][..]));
                slice.iter_mut().zip(elements).for_each(|(element, &bytes)| *element = Self::from_le_bytes(bytes));
            }
        }
    )* };
}
elements!(u8 i32 u32 u64 f64);

/// Goes to the bridge, and comes back after the call.
pub trait Parameter {
    fn put(&self, batch: &mut Batch);
    fn take(&mut self, batch: &mut Batch);
}

/// A number stays.
impl Parameter for u64 {
    fn put(&self, batch: &mut Batch) {
        batch.put_name("number");
        batch.put_number(*self);
    }

    fn take(&mut self, batch: &mut Batch) {
        batch.take_same_name("number");
        assert_eq!(batch.take_number(), *self, "the bridge keeps numbers");
    }
}

/// What is only read stays.
impl<T: Element> Parameter for &[T] {
    fn put(&self, batch: &mut Batch) {
        batch.put_slice(T::TYPE, self.len(), &T::to_bytes(self));
    }

    fn take(&mut self, batch: &mut Batch) {
        let bytes = T::to_bytes(self);
        assert_eq!(batch.take_slice(T::TYPE, self.len(), bytes.len()), bytes, "what is only read stays");
    }
}

/// What is lent comes back as the call left it.
impl<T: Element> Parameter for &mut [T] {
    fn put(&self, batch: &mut Batch) {
        (&**self).put(batch);
    }

    fn take(&mut self, batch: &mut Batch) {
        T::fill_from(self, batch.take_slice(T::TYPE, self.len(), size_of_val(*self)));
    }
}
