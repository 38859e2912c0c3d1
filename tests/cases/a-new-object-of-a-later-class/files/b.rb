class A
  def f; B.new end
end
class B
end
A.new.f
