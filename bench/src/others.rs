// Other libraries (bench/others.cpp), where they are installed.
use std::ffi::c_void;

type New = unsafe extern "C" fn(*const i16, usize, usize) -> *mut c_void;
type Ask = unsafe extern "C" fn(*mut c_void, *const i16, usize) -> f64;
type Free = unsafe extern "C" fn(*mut c_void);

extern "C" {
    fn kd_new(p: *const i16, n: usize, d: usize) -> *mut c_void;
    fn kd_ask(t: *mut c_void, q: *const i16, k: usize) -> f64;
    fn kd_free(t: *mut c_void);
    fn flat_new(p: *const i16, n: usize, d: usize) -> *mut c_void;
    fn flat_ask(t: *mut c_void, q: *const i16, k: usize) -> f64;
    fn flat_free(t: *mut c_void);
    fn rtree_new(p: *const i16, n: usize, d: usize) -> *mut c_void;
    fn rtree_ask(t: *mut c_void, q: *const i16, k: usize) -> f64;
    fn rtree_free(t: *mut c_void);
}

/// An index of another library over some points.
pub struct Other {
    at: *mut c_void,
    ask: Ask,
    free: Free,
}

impl Other {
    fn new(new: New, ask: Ask, free: Free, points: &[i16], d: usize) -> Other {
        let at = unsafe { new(points.as_ptr(), points.len() / d, d) };
        Other { at, ask, free }
    }

    /// nanoflann, FAISS's flat index and libspatialindex's R*-tree, in this order.
    pub fn all(points: &[i16], d: usize) -> Vec<Other> {
        vec![
            Other::new(kd_new, kd_ask, kd_free, points, d),
            Other::new(flat_new, flat_ask, flat_free, points, d),
            Other::new(rtree_new, rtree_ask, rtree_free, points, d),
        ]
    }

    pub fn ask(&self, q: &[i16], k: usize) -> f64 {
        unsafe { (self.ask)(self.at, q.as_ptr(), k) }
    }
}

impl Drop for Other {
    fn drop(&mut self) {
        unsafe { (self.free)(self.at) }
    }
}
