class B end
class A; def g() :x end; def f; nil end; end