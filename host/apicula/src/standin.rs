//! What the readers and samplers use of cgmath, by document 01's formulas: a matrix is its columns, an entry of a product is the sum of
//! four products added from the left, a cross product is y1·z2 - z1·y2 and so on.
use std::ops::{Add, Mul, Neg};

#[derive(Clone, Copy, Debug, PartialEq)]
pub struct Vector3<T> {
    pub x: T,
    pub y: T,
    pub z: T,
}

pub fn vec3<T>(x: T, y: T, z: T) -> Vector3<T> {
    Vector3 { x, y, z }
}

impl Vector3<f64> {
    pub fn cross(self, o: Self) -> Self {
        vec3(self.y * o.z - self.z * o.y, self.z * o.x - self.x * o.z, self.x * o.y - self.y * o.x)
    }

    fn entries(self) -> [f64; 3] {
        [self.x, self.y, self.z]
    }
}

pub trait One {
    fn one() -> Self;
}

#[derive(Clone, Copy, Debug, PartialEq)]
pub struct Matrix3<T> {
    pub columns: [[T; 3]; 3],
}

impl Matrix3<f64> {
    #[allow(clippy::too_many_arguments)]
    pub fn new(a: f64, b: f64, c: f64, d: f64, e: f64, f: f64, g: f64, h: f64, i: f64) -> Self {
        Matrix3 { columns: [[a, b, c], [d, e, f], [g, h, i]] }
    }

    pub fn from_cols(a: Vector3<f64>, b: Vector3<f64>, c: Vector3<f64>) -> Self {
        Matrix3 { columns: [a.entries(), b.entries(), c.entries()] }
    }
}

impl One for Matrix3<f64> {
    fn one() -> Self {
        Matrix3::new(1.0, 0.0, 0.0, 0.0, 1.0, 0.0, 0.0, 0.0, 1.0)
    }
}

impl Mul<f64> for Matrix3<f64> {
    type Output = Self;
    fn mul(self, g: f64) -> Self {
        Matrix3 { columns: self.columns.map(|c| c.map(|x| x * g)) }
    }
}

impl Add for Matrix3<f64> {
    type Output = Self;
    fn add(self, o: Self) -> Self {
        let mut m = self;
        for c in 0..3 {
            for r in 0..3 {
                m.columns[c][r] = self.columns[c][r] + o.columns[c][r];
            }
        }
        m
    }
}

#[derive(Clone, Copy, Debug, PartialEq)]
pub struct Matrix4<T> {
    pub columns: [[T; 4]; 4],
}

impl Matrix4<f64> {
    pub fn from_translation(v: Vector3<f64>) -> Self {
        Matrix4 { columns: [[1.0, 0.0, 0.0, 0.0], [0.0, 1.0, 0.0, 0.0], [0.0, 0.0, 1.0, 0.0], [v.x, v.y, v.z, 1.0]] }
    }

    pub fn from_nonuniform_scale(x: f64, y: f64, z: f64) -> Self {
        Matrix4 { columns: [[x, 0.0, 0.0, 0.0], [0.0, y, 0.0, 0.0], [0.0, 0.0, z, 0.0], [0.0, 0.0, 0.0, 1.0]] }
    }
}

impl From<Matrix3<f64>> for Matrix4<f64> {
    fn from(m: Matrix3<f64>) -> Self {
        let [a, b, c] = m.columns;
        Matrix4 { columns: [[a[0], a[1], a[2], 0.0], [b[0], b[1], b[2], 0.0], [c[0], c[1], c[2], 0.0], [0.0, 0.0, 0.0, 1.0]] }
    }
}

impl Mul for Matrix4<f64> {
    type Output = Self;
    fn mul(self, o: Self) -> Self {
        let (a, b) = (self.columns, o.columns);
        let mut m = self;
        for c in 0..4 {
            for r in 0..4 {
                m.columns[c][r] = a[0][r] * b[c][0] + a[1][r] * b[c][1] + a[2][r] * b[c][2] + a[3][r] * b[c][3];
            }
        }
        m
    }
}

/// Quaternions are left out; no comparison makes one.
#[derive(Clone, Copy)]
pub struct Quaternion<T>(std::marker::PhantomData<T>);

impl From<Matrix3<f64>> for Quaternion<f64> {
    fn from(_: Matrix3<f64>) -> Self {
        unimplemented!("quaternions are left out")
    }
}

impl Neg for Quaternion<f64> {
    type Output = Self;
    fn neg(self) -> Self {
        self
    }
}

pub trait InnerSpace: Sized {
    fn normalize(self) -> Self {
        self
    }
    fn dot(self, _: Self) -> f64 {
        0.0
    }
}

impl InnerSpace for Quaternion<f64> {}
