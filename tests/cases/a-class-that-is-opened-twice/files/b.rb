class A
end
class A
end
