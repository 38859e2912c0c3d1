class A
  def run; 1 end
  def take(n) n end
  def none; end
end
nil.f
x = A.new.none
x.run
A.new.none.take(1)
