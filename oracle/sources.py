"""Small programs to be compiled: the texts of the source files that files.py writes before it calls the compilers."""

LOOPS = '''
int sum(const int *a, int n) { int s = 0; for (int i = 0; i < n; i++) s += a[i]; return s; }
void mix(float *restrict a, const float *restrict b, long n) { for (long i = 0; i < n; i++) a[i] = a[i] * 0.5f + b[i]; }
unsigned collatz(unsigned long n) { unsigned k = 0; while (n != 1) { n = n & 1 ? 3 * n + 1 : n / 2; k++; } return k; }
unsigned long long wide(unsigned long long v) { return v * 0x9E3779B97F4A7C15ull ^ 0xFFFFFFFFFFFFFFFFull; }
__int128 huge(__int128 v) { return v + ((__int128)1 << 100); }
int twice(int n) { do { n -= 3; if (n == 7) continue; if (n < -9) break; } while (n > 0); return n + sum(&n, 1); }
'''

STRUCTS = '''
#include <stdarg.h>
struct point { int x, y; const char *name; };
struct packed { char a; long long b; unsigned c : 3, d : 29; } __attribute__((packed));
union either { int i; double d; char bytes[16]; };
enum colour { RED, GREEN = 5, BLUE = -2147483647 - 1 };
static const struct point points[] = {{1, 2, "one"}, {-3, 4, "zwei\\xc3\\xa4"}, {5, -6, "tab\\there"}, {0, 0, ""}};
const char *words[] = {"alpha", "beta.gamma_delta", "with space", "\\x01\\x80\\xff", "a'quote\\"and\\\\slash"};
const double numbers[] = {0.0, -1.5, 3.14159265358979, 1e300};
const long long longs[] = {-9223372036854775807LL - 1, 9223372036854775807LL, 0, -1};
int shared_value __attribute__((section("own"), aligned(64))) = 7;
__thread int mine;
static int helper(int v) { return v ^ shared_value; }
int (*table[])(int) = {helper, 0, helper};
int pick(enum colour c) { switch (c) { case RED: return 1; case GREEN: return 20; case BLUE: return -3; } return 0; }
int choose(long v) { switch (v) { case 1 ... 9: return 1; case 1000000007: return 2; case -5: return 3; } return 4; }
double add(int n, ...) { va_list l; double s = 0; va_start(l, n); while (n--) s += va_arg(l, double); va_end(l); return s; }
union either turn(struct point p, struct packed *q) { union either e = {.d = p.x}; q->d = p.y; e.bytes[3] = 1; return e; }
int walk(int n) { void *to[] = {&&a, &&b}; goto *to[n & 1]; a: return points[n].x; b: return words[n][0]; }
__attribute__((weak, noinline)) int weak_one(int v) { return table[v] ? table[v](v) : mine; }
'''

ASSEMBLY = '''
__asm__(".globl marker\\nmarker:");
int zero(int in) { int v; __asm__ volatile("" : "=r"(v) : "0"(in), "m"(in) : "memory", "cc"); return v; }
'''

METADATA = '''
typedef int v4 __attribute__((vector_size(16)));
v4 shuffle(v4 a, v4 b) { return __builtin_shufflevector(a, b, 0, 5, 2, 7) + (a > b); }
int likely(int *p, float *q) { *p = 1; *q = 2; return __builtin_expect(*p, 1) ? *p : (int)*q; }
__attribute__((annotate("marked"), cold)) void fill(int *a, int n) {
#pragma clang loop vectorize(enable) unroll_count(4)
  for (int i = 0; i < n; i++) { __builtin_assume(i < 1000); a[i] = i; }
}
_Atomic long counter;
long count(void) { return ++counter + __atomic_fetch_add((long *)&counter, 2, __ATOMIC_ACQUIRE); }
int compare(int *p, int was, int is) { return __sync_val_compare_and_swap(p, was, is); }
'''

THROWS = '''
extern "C" int printf(const char *, ...);
struct guard { int v; guard(int v) : v(v) {} ~guard() { printf("%d", v); } };
struct fault { virtual ~fault() {} virtual const char *what() const { return "fault"; } };
struct worse : fault { const char *what() const override { return "worse"; } };
int risky(int n) { guard g(n); if (n > 3) throw worse(); if (n > 2) throw n; return n; }
int calm(int n) {
  try { guard h(n + 1); return risky(n); }
  catch (const fault &f) { return f.what()[0]; } catch (int v) { return -v; } catch (...) { throw; }
}
int quiet(int n) noexcept { return calm(n); }
'''

SHAPES = '''
struct shape { virtual double area() const = 0; virtual ~shape(); };
struct named { const char *name; virtual const char *label() const { return name; } };
struct circle : shape, virtual named { double r; double area() const override { return 3.14 * r * r; } };
struct square : shape, virtual named { double s; double area() const override { return s * s; } };
struct both : circle, square { double area() const override { return circle::area() + square::area(); } };
shape::~shape() {}
double total(const shape *const *list, int n) { double t = 0; while (n--) t += list[n]->area(); return t; }
both made; int both::*none = nullptr; double (shape::*member)() const = &shape::area;
double call(const shape &s) { static int calls; ++calls; return (s.*member)(); }
'''

TEMPLATES = '''
template <class T, int N> struct ring {
  T at[N]; int head = 0;
  void put(T v) { at[head++ % N] = v; }
  T get(int i) { return at[i % N]; }
};
template <class T> T greatest(T a) { return a; }
template <class T, class... R> T greatest(T a, R... rest) { T b = greatest<T>(rest...); return a < b ? b : a; }
template <int N> struct fib { static constexpr long value = fib<N - 1>::value + fib<N - 2>::value; };
template <> struct fib<0> { static constexpr long value = 0; };
template <> struct fib<1> { static constexpr long value = 1; };
namespace deep { inline namespace v1 { template <class F> auto apply(F f) { return [=](int x) { return f(f(x)); }; } } }
long all(int x) {
  ring<long, 5> a; ring<char, 9> b; ring<ring<short, 2>, 3> c; a.put(x); b.put('x'); c.put({});
  long most = greatest(1l, a.get(1), (long)b.get(2), (long)c.get(0).get(1));
  return most + fib<40>::value + deep::apply([&](int v) { return v * x; })(3);
}
'''

LIBRARY = '''
#include <map>
#include <string>
#include <vector>
std::map<std::string, std::vector<int>> index(const std::vector<std::string> &words) {
  std::map<std::string, std::vector<int>> found;
  for (int i = 0; i < (int)words.size(); i++) found[words[i]].push_back(i);
  return found;
}
'''

COMPLAINTS = '''
#include "other.h"
int unused(int a) { int b; return a = 1, c; }
void few(void) { unused(); unused(1, 2); int x = 1 }
int *mixed(void) { if (unused(1) = 2) return "text"; char big = 3000; return big; }
void format(int n) { __builtin_printf("%s %d\\n", n, "n", 5); fewer(); }
'''

HEADER = '''
#ifndef OTHER
#define OTHER 1
struct pair { int a, b; };
static inline int both(struct pair p) { return p.a + p.b * OTHER; }
int declared(const char *, ...);
#endif
'''

MODULE = 'module Small { header "other.h" export * }\n'
UNIT = 'export module unit;\nexport int twice(int a) { return 2 * a; }\nexport template <class T> T same(T a) { return a; }\n'

ASSEMBLED = '''
source_filename = "by hand"
target triple = "aarch64-unknown-linux-gnu"
%node = type { i32, %node*, [3 x <2 x float>] }
@text = private constant [7 x i8] c"\\00\\01\\7f\\80\\ff\\22\\5c"
@other = alias i32, i32* @value
@value = thread_local(initialexec) global i32 -2147483648, align 4
$group = comdat any
define linkonce_odr fastcc i65 @odd(i65 %a, %node* byval(%node) %n) comdat($group) gc "mine" prefix i32 3 !mark !0 {
  %b = mul nsw i65 %a, 36893488147419103231
  %c = icmp ult i65 %b, -1
  br i1 %c, label %yes, label %no, !prof !2
yes:
  ret i65 %b
no:
  unreachable
}
!named = !{!0, !1}
!0 = !{!"string", i64 -1, !1, null}
!1 = distinct !{!1, double 1.5, !"", !"\\00\\01 \\ff"}
!2 = !{!"branch_weights", i32 1, i32 4294967295}
'''

RUST_LIBRARY = '''
use std::collections::HashMap;
pub trait Shape { fn area(&self) -> f64; fn name(&self) -> String { String::from("shape") } }
pub struct Circle(pub f64);
pub enum Tree<T> { Leaf, Node(Box<Tree<T>>, T, Box<Tree<T>>) }
impl Shape for Circle { fn area(&self) -> f64 { 3.14 * self.0 * self.0 } }
impl<T: PartialOrd + Copy> Tree<T> {
    pub fn has(&self, v: T) -> bool {
        match self {
            Tree::Leaf => false,
            Tree::Node(l, x, r) => if v == *x { true } else if v < *x { l.has(v) } else { r.has(v) },
        }
    }
}
pub fn total(shapes: &[Box<dyn Shape>]) -> f64 { shapes.iter().map(|s| s.area()).sum() }
pub fn counts(text: &str) -> HashMap<char, u128> {
    let mut m = HashMap::new();
    for c in text.chars() { *m.entry(c).or_insert(0) += 1; }
    m
}
pub fn parse(text: &str) -> Result<Vec<i32>, std::num::ParseIntError> { text.split(',').map(str::parse).collect() }
pub fn look(t: &Tree<u8>) -> bool { t.has(7) }
'''

RUST_PROGRAM = '''
fn main() {
    let v: Vec<String> = std::env::args().map(|a| a.to_uppercase()).collect();
    println!("{v:?} {}", v.len() as f32 / 3.0);
}
'''


STEP = '''
struct s%(k)d { int a; struct s%(before)d *next; long b[%(size)d]; };
long step%(k)d(struct s%(k)d *p, int n) {
  for (int i = 0; i < n; i++) if (p->a == %(odd)d) p->b[0] += first("name %(k)d", i);
  return p->b[0] %% %(rest)d + step%(before)d((void *)p->next, %(k)d);
}
'''


def many(count):
    """So many functions, each with its own string, constants, struct and calls."""
    lines = ['struct s0 { int a; }; int first(const char *, int); long step0(struct s0 *, int);']
    for k in range(1, count + 1):
        lines.append(STEP % {'k': k, 'before': k - 1, 'size': k % 7 + 1, 'odd': k * k * 37 - 5000, 'rest': k + 2})
    return '\n'.join(lines)


TABLES = 'const char *words[] = {%s};\nconst unsigned numbers[] = {%s};\nconst char long_one[] = "%s";\n'


def tables(count):
    """Tables of strings and numbers, so that records are long."""
    words = ['"%s"' % (chr(97 + k % 26) * (k % 40) + (' %d' % k if k % 3 else '')) for k in range(count)]
    numbers = [str(k * 2654435761 % 2 ** 32) for k in range(count)]
    return TABLES % (', '.join(words), ', '.join(numbers), 'x.Y_9' * count)


SOURCES = {
    'empty.c': '', 'one.c': 'int one;\n', 'loops.c': LOOPS, 'structs.c': STRUCTS, 'assembly.c': ASSEMBLY,
    'metadata.c': METADATA, 'tables.c': tables(1500), 'many.c': many(60), 'big.c': many(1700),
    'throws.cpp': THROWS, 'shapes.cpp': SHAPES, 'templates.cpp': TEMPLATES, 'library.cpp': LIBRARY,
    'complaints.c': COMPLAINTS, 'complaints.cpp': COMPLAINTS + THROWS, 'other.h': HEADER, 'module.modulemap': MODULE,
    'unit.cppm': UNIT, 'assembled.ll': ASSEMBLED, 'library.rs': RUST_LIBRARY, 'program.rs': RUST_PROGRAM,
}
