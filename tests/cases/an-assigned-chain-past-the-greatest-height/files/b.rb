class A
  def me() A.new end
  def with(a) a end
end
a = A.new
x = a.me.me.me.me.me.me.me.me.me.me.me.me.me.me.me.me.me.me.me.me.me.me.me.me.me.me.me.me.me.me.me.me.me.me.me.me.me.me.me.me.me.me.me.me.me.me.me.me.me.me.me.me.me.me.me.me.me.me.me.me.me.me.me.me.me.me.me.me.me.me.me.me.me.me.me.me.me.me.me.me.me.me.me.me.me.me.me.me.me.me.me.me.me.me.me.me.me.me.me.me.me.me.me.me.me.me.me.me.me.me.me.me.me.me.me.me.me.me.me.me.me.me.me.me.me.me.me.me.me.me.me.me.me.me.me.me.me.me.me.me.me.me.me.me.me.me.me.me.me.me.me.me.me.me.me.me.me.me.me.me.me.me.me.me.me.me.me.me.me.me.me.me.me.me.me.me.me.me.me.me.me.me.me.me.me.me.me.me.me.me.me.me.me.me.me.me.me.me.me
