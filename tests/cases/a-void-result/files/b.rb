class A
  def run; 1 end
  def take(n) n end
  def none; end
end
a = A.new
x = a.run
x
a.take(x)
x.run
a.run.run
a.take(a.run, 1)
