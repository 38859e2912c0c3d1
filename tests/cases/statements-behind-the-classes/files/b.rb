class A
  def f
    1
  end
end
x = :a
"b"; y = x
y
-5