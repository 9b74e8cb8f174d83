struct Page<T> { items: Vec<T>, next: Option<String> }
struct Envelope<T, E> { data: Option<T>, errors: Vec<E> }
struct Node<T> { value: T, kids: Vec<Node<T>> }
struct Window<'a, T, const N: usize> where T: Copy { name: &'a str, last: [T; N] }
enum Outcome<T, E> { Done(T), Failed(E) }
struct User { id: u64 }
struct Reply {
    page: Page<User>, sent: Envelope<User, String>, tree: Node<u32>, recent: Window<'static, u32, 8>, end: Outcome<User, String>,
}
