//! Stand-in for what the original uses of `ndarray`: owned arrays and views of 0, 1 or 2 axes, iteration along an axis, slices of one axis and
//! `par_azip!`, which runs on the calling thread and in order. Places out of range and lengths that do not match panic, as they do there.
use std::fmt;
use std::marker::PhantomData;
use std::ops::{Index, IndexMut, RangeFrom, RangeTo};

#[derive(Clone, Copy, Debug, PartialEq, Eq)]
pub struct Axis(pub usize);

#[derive(Clone, Copy, Debug, PartialEq, Eq)]
pub struct Dim<I>(pub I);

pub type Ix0 = Dim<[usize; 0]>;
pub type Ix1 = Dim<[usize; 1]>;
pub type Ix2 = Dim<[usize; 2]>;

/// Where the elements are: owned, or seen through a view.
pub trait Data {
    type Elem;
}

pub trait DataMut: Data {}

#[derive(Clone)]
pub struct OwnedRepr<T>(Vec<T>);

#[derive(Clone, Copy)]
pub struct ViewRepr<A>(PhantomData<A>);

impl<T> Data for OwnedRepr<T> {
    type Elem = T;
}

impl<T> DataMut for OwnedRepr<T> {}

impl<T> Data for ViewRepr<&T> {
    type Elem = T;
}

impl<T> Data for ViewRepr<&mut T> {
    type Elem = T;
}

impl<T> DataMut for ViewRepr<&mut T> {}

/// The element at (i, j) is `strides[0] * i + strides[1] * j` elements after `ptr`.
pub struct ArrayBase<S: Data, D> {
    data: S,
    ptr: *mut S::Elem,
    dim: D,
    strides: D,
}

pub type Array1<T> = ArrayBase<OwnedRepr<T>, Ix1>;
pub type ArrayView1<'a, T> = ArrayBase<ViewRepr<&'a T>, Ix1>;
pub type ArrayView2<'a, T> = ArrayBase<ViewRepr<&'a T>, Ix2>;
pub type ArrayViewMut0<'a, T> = ArrayBase<ViewRepr<&'a mut T>, Ix0>;
pub type ArrayViewMut1<'a, T> = ArrayBase<ViewRepr<&'a mut T>, Ix1>;
pub type ArrayViewMut2<'a, T> = ArrayBase<ViewRepr<&'a mut T>, Ix2>;

// A pointer travels with the exclusive or shared right that its view was made from, so a view may go where a slice may go.
unsafe impl<S: Data, D> Send for ArrayBase<S, D> where S::Elem: Send {}
unsafe impl<S: Data, D> Sync for ArrayBase<S, D> where S::Elem: Sync {}

fn view<A, T, D>(ptr: *mut T, dim: D, strides: D) -> ArrayBase<ViewRepr<A>, D>
where
    ViewRepr<A>: Data<Elem = T>,
{
    ArrayBase { data: ViewRepr(PhantomData), ptr, dim, strides }
}

impl<T> Array1<T> {
    pub fn from_vec(mut values: Vec<T>) -> Self {
        let dim = Dim([values.len()]);
        ArrayBase { ptr: values.as_mut_ptr(), data: OwnedRepr(values), dim, strides: Dim([1]) }
    }

    pub fn zeros(n: usize) -> Self
    where
        T: Default + Clone,
    {
        Self::from_vec(vec![T::default(); n])
    }

    pub fn to_vec(&self) -> Vec<T>
    where
        T: Clone,
    {
        self.data.0.clone()
    }
}

impl<T: Clone> Clone for Array1<T> {
    fn clone(&self) -> Self {
        Self::from_vec(self.to_vec())
    }
}

impl<T: fmt::Debug> fmt::Debug for Array1<T> {
    fn fmt(&self, f: &mut fmt::Formatter<'_>) -> fmt::Result {
        self.data.0.fmt(f)
    }
}

/// Strides of a shape in row order or column order; all 0 if there is no element.
fn strides_of(dim: [usize; 2], column_order: bool) -> Dim<[usize; 2]> {
    if dim[0] == 0 || dim[1] == 0 {
        Dim([0, 0])
    } else if column_order {
        Dim([1, dim[0]])
    } else {
        Dim([dim[1], 1])
    }
}

/// A shape with its order, as `(rows, columns).f()` or without `.f()` for row order.
#[derive(Clone, Copy)]
pub struct Shape2(pub (usize, usize), pub bool);

pub trait ShapeBuilder {
    fn f(self) -> Shape2;
    fn set_f(self, column_order: bool) -> Shape2;
}

impl ShapeBuilder for (usize, usize) {
    fn f(self) -> Shape2 {
        Shape2(self, true)
    }
    fn set_f(self, column_order: bool) -> Shape2 {
        Shape2(self, column_order)
    }
}

#[derive(Debug)]
pub struct ShapeError;

fn check_shape(shape: Shape2, len: usize) -> Result<[usize; 2], ShapeError> {
    let (rows, columns) = shape.0;
    match rows.checked_mul(columns) {
        Some(n) if n == len => Ok([rows, columns]),
        _ => Err(ShapeError),
    }
}

impl<'a, T> ArrayView2<'a, T> {
    pub fn from_shape(shape: Shape2, values: &'a [T]) -> Result<Self, ShapeError> {
        let dim = check_shape(shape, values.len())?;
        Ok(view(values.as_ptr() as *mut T, Dim(dim), strides_of(dim, shape.1)))
    }
}

impl<'a, T> ArrayViewMut2<'a, T> {
    pub fn from_shape(shape: Shape2, values: &'a mut [T]) -> Result<Self, ShapeError> {
        let dim = check_shape(shape, values.len())?;
        Ok(view(values.as_mut_ptr(), Dim(dim), strides_of(dim, shape.1)))
    }
}

impl<'a, T> From<&'a [T]> for ArrayView1<'a, T> {
    fn from(values: &'a [T]) -> Self {
        view(values.as_ptr() as *mut T, Dim([values.len()]), Dim([1]))
    }
}

impl<S: Data> ArrayBase<S, Ix2> {
    pub fn dim(&self) -> (usize, usize) {
        (self.dim.0[0], self.dim.0[1])
    }

    pub fn stride_of(&self, axis: Axis) -> isize {
        self.strides.0[axis.0] as isize
    }

    fn along<A>(&self, axis: Axis) -> AxisIter<A, S::Elem, Ix1> {
        let other = 1 - axis.0;
        AxisIter {
            ptr: self.ptr,
            len: self.dim.0[axis.0],
            stride: self.strides.0[axis.0],
            dim: Dim([self.dim.0[other]]),
            strides: Dim([self.strides.0[other]]),
            of: PhantomData,
        }
    }

    pub fn axis_iter(&self, axis: Axis) -> AxisIter<&S::Elem, S::Elem, Ix1> {
        self.along(axis)
    }

    pub fn axis_iter_mut(&mut self, axis: Axis) -> AxisIter<&mut S::Elem, S::Elem, Ix1>
    where
        S: DataMut,
    {
        self.along(axis)
    }

    pub fn view_mut(&mut self) -> ArrayViewMut2<'_, S::Elem>
    where
        S: DataMut,
    {
        view(self.ptr, self.dim, self.strides)
    }

    pub fn reversed_axes(mut self) -> Self {
        self.dim.0.reverse();
        self.strides.0.reverse();
        self
    }

    pub fn fill(&mut self, value: S::Elem)
    where
        S: DataMut,
        S::Elem: Clone,
    {
        for i in 0..self.dim.0[0] {
            for j in 0..self.dim.0[1] {
                self[(i, j)] = value.clone();
            }
        }
    }

    fn place(&self, (i, j): (usize, usize)) -> *mut S::Elem {
        assert!(i < self.dim.0[0] && j < self.dim.0[1], "out of range");
        self.ptr.wrapping_add(i * self.strides.0[0] + j * self.strides.0[1])
    }
}

impl<S: Data> ArrayBase<S, Ix1> {
    pub fn len(&self) -> usize {
        self.dim.0[0]
    }

    pub fn is_empty(&self) -> bool {
        self.len() == 0
    }

    fn items<A>(&self) -> Items<A, S::Elem> {
        Items { ptr: self.ptr, len: self.dim.0[0], stride: self.strides.0[0], of: PhantomData }
    }

    pub fn iter(&self) -> Items<&S::Elem, S::Elem> {
        self.items()
    }

    pub fn axis_iter_mut(&mut self, axis: Axis) -> AxisIter<&mut S::Elem, S::Elem, Ix0>
    where
        S: DataMut,
    {
        assert_eq!(axis, Axis(0));
        AxisIter {
            ptr: self.ptr,
            len: self.dim.0[0],
            stride: self.strides.0[0],
            dim: Dim([]),
            strides: Dim([]),
            of: PhantomData,
        }
    }

    fn part<A>(&self, from: usize, to: usize) -> ArrayBase<ViewRepr<A>, Ix1>
    where
        ViewRepr<A>: Data<Elem = S::Elem>,
    {
        assert!(from <= to && to <= self.len(), "out of range");
        view(self.ptr.wrapping_add(from * self.strides.0[0]), Dim([to - from]), self.strides)
    }

    pub fn slice(&self, part: impl Part) -> ArrayView1<'_, S::Elem> {
        let (from, to) = part.of(self.len());
        self.part(from, to)
    }

    pub fn slice_mut(&mut self, part: impl Part) -> ArrayViewMut1<'_, S::Elem>
    where
        S: DataMut,
    {
        let (from, to) = part.of(self.len());
        self.part(from, to)
    }

    /// The whole chunks of `n` elements; a remainder is left out.
    pub fn exact_chunks(&self, n: usize) -> Vec<ArrayView1<'_, S::Elem>> {
        (0..self.len() / n).map(|i| self.part(i * n, i * n + n)).collect()
    }

    fn place(&self, i: usize) -> *mut S::Elem {
        assert!(i < self.dim.0[0], "out of range");
        self.ptr.wrapping_add(i * self.strides.0[0])
    }
}

macro_rules! index {
    ($dim:ty, $at:ty, $place:expr) => {
        impl<S: Data> Index<$at> for ArrayBase<S, $dim> {
            type Output = S::Elem;

            fn index(&self, at: $at) -> &S::Elem {
                let place: fn(&Self, $at) -> *mut S::Elem = $place;
                unsafe { &*place(self, at) }
            }
        }

        impl<S: DataMut> IndexMut<$at> for ArrayBase<S, $dim> {
            fn index_mut(&mut self, at: $at) -> &mut S::Elem {
                let place: fn(&Self, $at) -> *mut S::Elem = $place;
                unsafe { &mut *place(self, at) }
            }
        }
    };
}

index!(Ix0, (), |array, ()| array.ptr);
index!(Ix1, usize, |array, i| array.place(i));
index!(Ix2, (usize, usize), |array, at| array.place(at));

/// The views along an axis.
pub struct AxisIter<A, T, D> {
    ptr: *mut T,
    len: usize,
    stride: usize,
    dim: D,
    strides: D,
    of: PhantomData<A>,
}

unsafe impl<A: Send, T: Send, D> Send for AxisIter<A, T, D> {}

impl<A, T, D: Copy> Iterator for AxisIter<A, T, D>
where
    ViewRepr<A>: Data<Elem = T>,
{
    type Item = ArrayBase<ViewRepr<A>, D>;

    fn next(&mut self) -> Option<Self::Item> {
        self.len = self.len.checked_sub(1)?;
        let at = self.ptr;
        self.ptr = at.wrapping_add(self.stride);
        Some(view(at, self.dim, self.strides))
    }

    fn size_hint(&self) -> (usize, Option<usize>) {
        (self.len, Some(self.len))
    }
}

impl<A, T, D: Copy> ExactSizeIterator for AxisIter<A, T, D> where ViewRepr<A>: Data<Elem = T> {}

/// The elements of one axis, in order.
pub struct Items<A, T> {
    ptr: *mut T,
    len: usize,
    stride: usize,
    of: PhantomData<A>,
}

unsafe impl<A: Send, T: Send> Send for Items<A, T> {}

impl<A, T> Items<A, T> {
    fn step(&mut self) -> Option<*mut T> {
        self.len = self.len.checked_sub(1)?;
        let at = self.ptr;
        self.ptr = at.wrapping_add(self.stride);
        Some(at)
    }
}

impl<'a, T> Iterator for Items<&'a T, T> {
    type Item = &'a T;

    fn next(&mut self) -> Option<&'a T> {
        self.step().map(|at| unsafe { &*at })
    }

    fn size_hint(&self) -> (usize, Option<usize>) {
        (self.len, Some(self.len))
    }
}

impl<'a, T> Iterator for Items<&'a mut T, T> {
    type Item = &'a mut T;

    fn next(&mut self) -> Option<&'a mut T> {
        self.step().map(|at| unsafe { &mut *at })
    }

    fn size_hint(&self) -> (usize, Option<usize>) {
        (self.len, Some(self.len))
    }
}

impl<'a, T> ExactSizeIterator for Items<&'a T, T> {}
impl<'a, T> ExactSizeIterator for Items<&'a mut T, T> {}

impl<'a, T> IntoIterator for ArrayView1<'a, T> {
    type Item = &'a T;
    type IntoIter = Items<&'a T, T>;

    fn into_iter(self) -> Self::IntoIter {
        self.items()
    }
}

impl<'a, T> IntoIterator for &'a Array1<T> {
    type Item = &'a T;
    type IntoIter = Items<&'a T, T>;

    fn into_iter(self) -> Self::IntoIter {
        self.items()
    }
}

impl<'a, T> IntoIterator for &'a mut Array1<T> {
    type Item = &'a mut T;
    type IntoIter = Items<&'a mut T, T>;

    fn into_iter(self) -> Self::IntoIter {
        self.items()
    }
}

impl<'a, T: Sync> rayon::iter::IntoParallelIterator for &'a Array1<T> {
    type Item = &'a T;
    type Iter = rayon::slice::Iter<'a, T>;

    fn into_par_iter(self) -> Self::Iter {
        self.data.0.as_slice().into_par_iter()
    }
}

impl<'a, T: Send> rayon::iter::IntoParallelIterator for &'a mut Array1<T> {
    type Item = &'a mut T;
    type Iter = rayon::slice::IterMut<'a, T>;

    fn into_par_iter(self) -> Self::Iter {
        self.data.0.as_mut_slice().into_par_iter()
    }
}

/// What `s![..n]` and `s![n..]` stand for.
pub trait Part {
    fn of(self, len: usize) -> (usize, usize);
}

impl Part for RangeTo<usize> {
    fn of(self, _: usize) -> (usize, usize) {
        (0, self.end)
    }
}

impl Part for RangeFrom<usize> {
    fn of(self, len: usize) -> (usize, usize) {
        (self.start, len)
    }
}

#[macro_export]
macro_rules! s {
    ($part:expr) => {
        $part
    };
}

#[derive(Clone, Copy, Debug)]
pub enum SliceInfoElem {
    Slice { start: isize, end: Option<isize>, step: isize },
    Index(isize),
    NewAxis,
}

#[derive(Clone, Debug)]
pub struct SliceInfo<T, Din, Dout> {
    elems: T,
    of: PhantomData<(Din, Dout)>,
}

impl SliceInfo<[SliceInfoElem; 1], Ix1, Ix1> {
    pub fn in_ndim(&self) -> usize {
        1
    }

    pub fn out_ndim(&self) -> usize {
        1
    }
}

impl Index<usize> for SliceInfo<[SliceInfoElem; 1], Ix1, Ix1> {
    type Output = SliceInfoElem;

    fn index(&self, i: usize) -> &SliceInfoElem {
        &self.elems[i]
    }
}

impl TryFrom<[SliceInfoElem; 1]> for SliceInfo<[SliceInfoElem; 1], Ix1, Ix1> {
    type Error = ShapeError;

    fn try_from(elems: [SliceInfoElem; 1]) -> Result<Self, ShapeError> {
        Ok(SliceInfo { elems, of: PhantomData })
    }
}

/// Several iterations in step. Their lengths must be equal.
pub struct Zip<P> {
    parts: P,
    len: usize,
}

impl<A: ExactSizeIterator> Zip<(A,)> {
    pub fn from(a: impl IntoIterator<IntoIter = A>) -> Self {
        let a = a.into_iter();
        Zip { len: a.len(), parts: (a,) }
    }
}

impl<A: ExactSizeIterator> Zip<(std::ops::Range<usize>, A)> {
    pub fn indexed(a: impl IntoIterator<IntoIter = A>) -> Self {
        let a = a.into_iter();
        Zip { len: a.len(), parts: (0..a.len(), a) }
    }
}

macro_rules! zip {
    ($($t:ident $v:ident),+) => {
        impl<$($t: Iterator),+> Zip<($($t,)+)> {
            pub fn and<Next: ExactSizeIterator>(self, next: impl IntoIterator<IntoIter = Next>) -> Zip<($($t,)+ Next)> {
                let next = next.into_iter();
                assert_eq!(self.len, next.len(), "shapes that do not match");
                let ($($v,)+) = self.parts;
                Zip { parts: ($($v,)+ next), len: self.len }
            }

            pub fn for_each(mut self, mut f: impl FnMut($($t::Item),+)) {
                let ($($v,)+) = &mut self.parts;
                for _ in 0..self.len {
                    f($($v.next().unwrap()),+);
                }
            }

            pub fn par_map_collect<R>(mut self, mut f: impl FnMut($($t::Item),+) -> R) -> Array1<R> {
                let ($($v,)+) = &mut self.parts;
                Array1::from_vec((0..self.len).map(|_| f($($v.next().unwrap()),+)).collect())
            }
        }
    };
}

zip!(A a);
zip!(A a, B b);
zip!(A a, B b, C c);
zip!(A a, B b, C c, D d);
zip!(A a, B b, C c, D d, E e);

#[macro_export]
macro_rules! par_azip {
    ((index $i:pat_param, $p:pat_param in $e:expr) $body:expr) => {
        $crate::Zip::indexed($e).for_each(|$i, $p| $body)
    };
    (($p:pat_param in $e:expr $(, $q:pat_param in $f:expr)* $(,)?) $body:expr) => {
        $crate::Zip::from($e)$(.and($f))*.for_each(|$p $(, $q)*| $body)
    };
}
